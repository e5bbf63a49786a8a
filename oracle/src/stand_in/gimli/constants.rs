//! Numbers of the DWARF 5 Standard.

newtypes! { DwAt(u16); DwTag(u16); DwLns(u8); DwLne(u8); }

macro_rules! constants {
    ($kind:ident: $($name:ident = $value:literal,)+) => { $(pub const $name: $kind = $kind($value);)+ };
}

constants! { DwAt:
    DW_AT_name = 0x03, DW_AT_abstract_origin = 0x31, DW_AT_decl_file = 0x3a, DW_AT_decl_line = 0x3b,
    DW_AT_specification = 0x47, DW_AT_call_file = 0x58, DW_AT_call_line = 0x59, DW_AT_linkage_name = 0x6e,
    DW_AT_call_return_pc = 0x7d, DW_AT_call_origin = 0x7f, DW_AT_MIPS_linkage_name = 0x2007,
}
constants! { DwTag: DW_TAG_inlined_subroutine = 0x1d, DW_TAG_subprogram = 0x2e, DW_TAG_call_site = 0x48, }
constants! { DwLns:
    DW_LNS_copy = 0x01, DW_LNS_negate_stmt = 0x06, DW_LNS_set_basic_block = 0x07, DW_LNS_const_add_pc = 0x08,
    DW_LNS_fixed_advance_pc = 0x09, DW_LNS_set_prologue_end = 0x0a, DW_LNS_set_epilogue_begin = 0x0b,
}
constants! { DwLne: DW_LNE_end_sequence = 0x01, }
