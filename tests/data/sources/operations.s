# A line table of a machine whose instructions hold two operations of four bytes each, with names in
# both string sections: directories in .debug_line_str, files in .debug_str.
        .section .debug_line_str, "", @progbits
line_strings:
        .asciz "spare"
directory:
        .asciz "/boxantrel"
        .section .debug_str, "", @progbits
strings:
        .asciz "unused"
file:
        .asciz "packed.c"

        .section .debug_line, "", @progbits
        .4byte unit_end - version
version:
        .2byte 5
        .byte 8, 0                      # address_size, segment_selector_size
        .4byte program - header
header:
        .byte 4, 2, 1                   # minimum_instruction_length, maximum_operations_per_instruction, default_is_stmt
        .byte -3, 12, 13                # line_base, line_range, opcode_base
        .byte 0, 1, 1, 1, 1, 0, 0, 0, 1, 0, 0, 1
        .byte 1, 1, 0x1f                # directories: DW_LNCT_path in DW_FORM_line_strp
        .byte 1
        .4byte directory - line_strings
        .byte 2, 1, 0x0e, 2, 0x0b       # files: DW_LNCT_path in DW_FORM_strp, DW_LNCT_directory_index in DW_FORM_data1
        .byte 2
        .4byte file - strings
        .byte 0
        .4byte file - strings
        .byte 0
program:
        .byte 0, 9, 2                   # DW_LNE_set_address
        .8byte 0x20000
        .byte 3, 9, 1                   # DW_LNS_advance_line 9, DW_LNS_copy
        .byte 29                        # operation advance 1, line advance 1
        .byte 40                        # operation advance 2, line advance 0
        .byte 2, 3                      # DW_LNS_advance_pc 3
        .byte 0, 1, 1                   # DW_LNE_end_sequence
unit_end:
