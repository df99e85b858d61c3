//! The C functions, as `include/ferjulm.h` declares them.

type In<T> = *const T;
type InOut<T> = *mut T;

/// Each takes the SSD, the HDD, the table and the record, every one by pointer and length, then arguments of its own.
macro_rules! declare {
    ($($name:ident($ssd:ty, $hdd:ty, $table:ty, $record:ty; $($argument:ident: $kind:ty),*);)*) => {
        extern "C" {
            $(pub fn $name(
                ssd: $ssd, ssd_len: usize, hdd: $hdd, hdd_len: usize, table: $table, table_len: usize,
                record: $record, record_len: usize, $($argument: $kind),*
            ) -> u32;)*
        }
    };
}

declare! {
    ferjulm_format(In<u8>, In<u8>, InOut<u32>, InOut<u32>; slots: u32, blocks: u32);
    ferjulm_step(InOut<u8>, In<u8>, In<u32>, InOut<u32>; image: InOut<u32>, offset: InOut<u64>);
    ferjulm_reopen(In<u8>, In<u8>, InOut<u32>, InOut<u32>;);
    ferjulm_offer(InOut<u8>, InOut<u8>, InOut<u32>, InOut<u32>;
        block: u32, caller: u32, slot: InOut<u32>, image: InOut<u32>, offset: InOut<u64>);
    ferjulm_offer_list(InOut<u8>, InOut<u8>, InOut<u32>, InOut<u32>;
        blocks: In<u32>, blocks_len: usize, caller: u32, dealt: InOut<u32>, image: InOut<u32>, offset: InOut<u64>);
    ferjulm_land(InOut<u8>, In<u8>, InOut<u32>, InOut<u32>;
        block: u32, page: In<u8>, page_len: usize, image: InOut<u32>, offset: InOut<u64>);
    ferjulm_fetch(InOut<u8>, InOut<u8>, InOut<u32>, InOut<u32>;
        block: u32, caller: u32, slot: InOut<u32>, image: InOut<u32>, offset: InOut<u64>);
    ferjulm_land_fetch(InOut<u8>, In<u8>, InOut<u32>, InOut<u32>; block: u32, image: InOut<u32>, offset: InOut<u64>);
    ferjulm_look_up(In<u8>, In<u8>, InOut<u32>, In<u32>; block: u32, slot: InOut<u32>);
    ferjulm_look_up_list(In<u8>, In<u8>, InOut<u32>, In<u32>;
        blocks: In<u32>, blocks_len: usize, words: InOut<u32>, words_len: usize);
    ferjulm_view(In<u8>, In<u8>, In<u32>, In<u32>; block: u32, image: InOut<u32>, offset: InOut<u64>);
    ferjulm_map(In<u8>, In<u8>, In<u32>, In<u32>; sheet: InOut<u8>, sheet_len: usize);
    ferjulm_cost(In<u8>, In<u8>, In<u32>, In<u32>;
        blocks: In<u32>, blocks_len: usize, caller: u32, scratch: InOut<u32>, scratch_len: usize,
        copy_outs: InOut<u32>, metadata: InOut<u32>, data: InOut<u32>, number: InOut<u32>, place: InOut<u32>);
    ferjulm_write_back(In<u8>, InOut<u8>, InOut<u32>, InOut<u32>; block: u32, image: InOut<u32>, offset: InOut<u64>);
    ferjulm_flush(InOut<u8>, In<u8>, In<u32>, InOut<u32>; image: InOut<u32>, offset: InOut<u64>);
}

extern "C" {
    pub fn ferjulm_label(ssd: In<u8>, ssd_len: usize, slots: InOut<u32>, blocks: InOut<u32>)
        -> u32;
}
