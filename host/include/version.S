/* What lets the linker tell a header of one version from a library of another: rsmp_site.h calls rsmp_lent_start by its version's
 * name, which only the library of that version has. The proved objects beside this one stay as they are. */
    .text
    .globl  VERSIONED_START
    .type   VERSIONED_START, @function
VERSIONED_START:
    jmp     rsmp_lent_start
    .size   VERSIONED_START, . - VERSIONED_START

    .section .rodata
    .globl  rsmp_library_version
    .type   rsmp_library_version, @object
rsmp_library_version:
    .asciz  VERSION
    .size   rsmp_library_version, . - rsmp_library_version

    .section .note.GNU-stack, "", @progbits
