# shellcheck shell=bash
# How the C library hands out memory, for the programs of this repository. The launcher nfg, bench/run and three
# scripts of hostile source this file. A long string takes fresh memory from the system. In large pages, where
# the system has them, that costs half. On threads the C library asks for large pages only where it asks for
# memory in large steps (top_pad): four workers that read 16 MiB of French met 561 faults of pages, and 12,362
# with small steps. What a string leaves is kept for the next one. Copies of 2^19 bytes and more don't read what
# they write over: a string of a file in parts is made flat by such copies, which take a third less time so.
nfg_keep=glibc.malloc.mmap_threshold=1073741824:glibc.malloc.trim_threshold=4294967296:glibc.malloc.top_pad=67108864
nfg_copy=glibc.cpu.x86_non_temporal_threshold=524288
export GLIBC_TUNABLES=${GLIBC_TUNABLES:-glibc.malloc.hugetlb=1:$nfg_keep:$nfg_copy}
unset nfg_keep nfg_copy
