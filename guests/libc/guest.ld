/* Where a program with a C library lies. A page that no line here names isn't there, so what runs
   past the heap's end or below the stack ends with status 139.

     0x00010000   instructions and constants, from the file
     behind it    data, then zeros, then the heap of __heap_size bytes
     0x60000000   the attached input: its length in a word, then its bytes (libc/attach gives them)
     0x70000000   the end of the stack of __stack_size bytes, which grows down from here

   Both sizes are given to GNU ld by --defsym. Each page of these takes a frame from the start, and so
   do the 16 of the kernel's own stack at 0xEFFF0000, on which nothing is put here. */
ENTRY(_start)

PHDRS
{
  text PT_LOAD FLAGS(5);
  data PT_LOAD FLAGS(6);
  input PT_LOAD FLAGS(4);
  stack PT_LOAD FLAGS(6);
  tls PT_TLS FLAGS(4);
}

SECTIONS
{
  . = 0x10000;
  .text : {
    KEEP(*(.text.start))
    *(.text.unlikely .text.unlikely.*) *(.text.startup .text.startup.*) *(.text .text.*)
  } :text
  .rodata : { *(.rodata .rodata.*) *(.srodata .srodata.*) *(.data.rel.ro .data.rel.ro.*) } :text
  .init_array : {
    __preinit_array_start = .; KEEP(*(.preinit_array)) __preinit_array_end = .;
    __init_array_start = .;
    KEEP(*(SORT_BY_INIT_PRIORITY(.init_array.*) SORT_BY_INIT_PRIORITY(.ctors.*)))
    KEEP(*(.init_array .ctors))
    __init_array_end = .;
    __fini_array_start = .;
    KEEP(*(SORT_BY_INIT_PRIORITY(.fini_array.*) SORT_BY_INIT_PRIORITY(.dtors.*)))
    KEEP(*(.fini_array .dtors))
    __fini_array_end = .;
  } :text

  /* The first contents of thread-local variables. Each thread, the first one too, has a copy. */
  .tdata : { __tls_data = .; *(.tdata .tdata.*) } :text :tls
  .tbss : { *(.tbss .tbss.*) *(.tcommon) } :text :tls
  __tls_data_size = SIZEOF(.tdata);
  __tls_size = ADDR(.tbss) + SIZEOF(.tbss) - ADDR(.tdata);
  __tls_align = MAX(ALIGNOF(.tdata), ALIGNOF(.tbss));
  .read_only_end : { . = ALIGN(4); } :text

  . = ALIGN(4096);
  .data : {
    *(.data .data.*) *(.got .got.*)
    . = ALIGN(8);
    __global_pointer$ = . + 0x800;
    *(.sdata .sdata.*) *(.sdata2 .sdata2.*)
  } :data
  .bss (NOLOAD) : {
    *(.sbss .sbss.*) *(.bss .bss.*) *(COMMON)
    . = ALIGN(4096);
    __first_tls = .; . = . + __tls_size;
    . = ALIGN(16);
    _end = .; end = .;
    __heap_start = .;
    . = . + __heap_size;
    . = ALIGN(4096);
    __heap_end = .;
  } :data

  .attached_input 0x60000000 : { KEEP(*(.attached_input)) } :input

  .stack 0x70000000 - __stack_size (NOLOAD) : {
    ASSERT(__stack_size % 4096 == 0, "the stack is whole pages");
    . = . + __stack_size;
    __stack_top = .;
  } :stack

  /DISCARD/ : { *(.note .note.*) *(.eh_frame .eh_frame.*) *(.gcc_except_table .gcc_except_table.*) }
  .comment 0 : { *(.comment) }
  .riscv.attributes 0 : { *(.riscv.attributes) }
  .debug_aranges 0 : { *(.debug_aranges) }
  .debug_info 0 : { *(.debug_info) }
  .debug_abbrev 0 : { *(.debug_abbrev) }
  .debug_line 0 : { *(.debug_line .debug_line.*) }
  .debug_frame 0 : { *(.debug_frame) }
  .debug_str 0 : { *(.debug_str) }
  .debug_line_str 0 : { *(.debug_line_str) }
  .debug_loc 0 : { *(.debug_loc) }
  .debug_loclists 0 : { *(.debug_loclists) }
  .debug_ranges 0 : { *(.debug_ranges) }
  .debug_rnglists 0 : { *(.debug_rnglists) }
}
