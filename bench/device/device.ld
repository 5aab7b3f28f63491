/* Both machines have memory for code at 0 and for the stack at 0x20000000. The step and all that it calls stand from 0x20000 on, alone. */
SECTIONS {
    .vectors 0 : { KEEP(*(.vectors)) }
    .harness : { *main.o(.text .text.* .rodata .rodata.*) }
    .text 0x20000 : { *(.text .text.*) }
    .rodata 0x30000 : { *(.rodata .rodata.* .data .data.*) }
    .bss 0x20000000 (NOLOAD) : { *(.bss .bss.*) }
    stack_top = 0x20004000;
    /DISCARD/ : { *(.ARM.exidx .ARM.exidx.* .ARM.extab .ARM.extab.*) }
}
