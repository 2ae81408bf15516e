# A table for each machine that llvm-mc knows: `nop` stands for an instruction. Names of files stand behind others, so
# that their relocations count.
 .text
 .file 0 "/boxantrel" "series.c"
 .file 1 "/boxantrel" "parts.c"
 .loc 0 3 5
 nop
 .loc 1 70 6
 nop
 .loc 0 9 1
 nop
