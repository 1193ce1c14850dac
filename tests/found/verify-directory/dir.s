# Code of two rows. Its file is in directory 1, or the one that is asked for, and the only directory is number 0.
        .ifndef directory
        .set directory, 1
        .endif
        .text
        .globl _start
_start:
        ret
end:
        .section .debug_abbrev,"",@progbits
        .uleb128 1, 0x11        # DW_TAG_compile_unit
        .byte 0
        .uleb128 0x10, 0x17     # DW_AT_stmt_list by DW_FORM_sec_offset
        .uleb128 0, 0
        .byte 0
        .section .debug_info,"",@progbits
        .long unit_end - unit
unit:   .value 5
        .byte 1, 8              # DW_UT_compile, and the size of an address
        .long 0                 # abbreviations
        .uleb128 1
        .long 0                 # the line number program
unit_end:
        .section .debug_line,"",@progbits
        .long program_end - program
program:
        .value 5
        .byte 8, 0
        .long operations - tables
tables: .byte 1, 1, 1, -5, 14, 13, 0, 1, 1, 1, 1, 0, 0, 0, 1, 0, 0, 1
        .byte 1                 # one form of directories: DW_LNCT_path by DW_FORM_string
        .uleb128 1, 8
        .uleb128 1              # one directory
        .asciz "/src"
        .byte 2                 # two forms of files: the same, and DW_LNCT_directory_index by DW_FORM_udata
        .uleb128 1, 8, 2, 0xf
        .uleb128 1              # one file
        .asciz "a.c"
        .uleb128 directory
operations:
        .byte 0
        .uleb128 9
        .byte 2                 # DW_LNE_set_address
        .quad _start
        .byte 4                 # DW_LNS_set_file
        .uleb128 0
        .byte 1                 # DW_LNS_copy
        .byte 2                 # DW_LNS_advance_pc
        .uleb128 end - _start
        .byte 0, 1, 1           # DW_LNE_end_sequence
program_end:
        .section .note.GNU-stack,"",@progbits
