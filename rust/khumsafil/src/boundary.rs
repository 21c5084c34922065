//! The exported functions as `include/khumsafil_raw.h` declares them. A test holds these declarations, the header
//! and the Rattle source against each other, since no compiler does.

extern "C" {
    pub fn khumsafil_raw_version() -> u32;

    pub fn khumsafil_raw_section_read(payload: *const u8, payload_length: usize) -> u64;
    pub fn khumsafil_raw_section_key(payload: *const u8, payload_length: usize) -> u64;

    pub fn khumsafil_raw_shelf_begin(
        record: *mut u16,
        record_length: usize,
        store: *mut u8,
        store_length: usize,
    ) -> u8;
    pub fn khumsafil_raw_shelf_offer(
        record: *mut u16,
        record_length: usize,
        store: *mut u8,
        store_length: usize,
        payload: *const u8,
        payload_length: usize,
    ) -> u16;
    pub fn khumsafil_raw_shelf_is_complete(
        record: *const u16,
        record_length: usize,
        store: *const u8,
        store_length: usize,
        table: u8,
        extension: u16,
        service: u16,
        start: u32,
    ) -> bool;
    pub fn khumsafil_raw_shelf_complete(
        record: *const u16,
        record_length: usize,
        store: *const u8,
        store_length: usize,
        table: u8,
        extension: u16,
        service: u16,
        start: u32,
    ) -> u16;
    pub fn khumsafil_raw_shelf_lowest_missing(
        record: *const u16,
        record_length: usize,
        store: *const u8,
        store_length: usize,
        table: u8,
        extension: u16,
        service: u16,
        start: u32,
    ) -> u32;
    pub fn khumsafil_raw_shelf_table(
        record: *const u16,
        record_length: usize,
        store: *const u8,
        store_length: usize,
        place: u8,
        fields: *mut u16,
        fields_length: usize,
    ) -> u8;
    pub fn khumsafil_raw_shelf_copy_section(
        record: *const u16,
        record_length: usize,
        store: *const u8,
        store_length: usize,
        table: u8,
        extension: u16,
        service: u16,
        start: u32,
        number: u8,
        out: *mut u8,
        out_length: usize,
    ) -> u32;
    pub fn khumsafil_raw_shelf_release(
        record: *mut u16,
        record_length: usize,
        store: *mut u8,
        store_length: usize,
        table: u8,
        extension: u16,
        service: u16,
        start: u32,
    ) -> u8;
    pub fn khumsafil_raw_shelf_save(
        record: *const u16,
        record_length: usize,
        store: *const u8,
        store_length: usize,
        table: u8,
        extension: u16,
        service: u16,
        start: u32,
        out: *mut u8,
        out_length: usize,
    ) -> u32;
    pub fn khumsafil_raw_shelf_load(
        record: *mut u16,
        record_length: usize,
        store: *mut u8,
        store_length: usize,
        file: *const u8,
        file_length: usize,
    ) -> u8;

    pub fn khumsafil_raw_file_table(
        file: *const u8,
        file_length: usize,
        fields: *mut u16,
        fields_length: usize,
    ) -> u8;
    pub fn khumsafil_raw_file_list(
        file: *const u8,
        file_length: usize,
        out: *mut u8,
        out_length: usize,
    ) -> u32;
    pub fn khumsafil_raw_file_number(bytes: *const u8, bytes_length: usize) -> u32;

    pub fn khumsafil_raw_descriptor_step(bytes: *const u8, bytes_length: usize, at: usize) -> u64;
    pub fn khumsafil_raw_descriptor_is_trigger_tap(
        bytes: *const u8,
        bytes_length: usize,
        at: usize,
    ) -> bool;

    pub fn khumsafil_raw_trigger_read(
        payload: *const u8,
        payload_length: usize,
        fields: *mut u16,
        fields_length: usize,
    ) -> u8;
    pub fn khumsafil_raw_trigger_belongs(
        payload: *const u8,
        payload_length: usize,
        fields: *const u16,
        fields_length: usize,
        application: *const u8,
        application_length: usize,
    ) -> bool;

    pub fn khumsafil_raw_programme_read(
        payload: *const u8,
        payload_length: usize,
        fields: *mut u32,
        fields_length: usize,
    ) -> u8;
    pub fn khumsafil_raw_programme_items(
        payload: *const u8,
        payload_length: usize,
        at: usize,
        number: u8,
        fields: *mut u64,
        fields_length: usize,
    ) -> u64;
    pub fn khumsafil_raw_programme_list(
        file: *const u8,
        file_length: usize,
        out: *mut u8,
        out_length: usize,
    ) -> u64;
    pub fn khumsafil_raw_programme_own(payload: *const u8, payload_length: usize, at: usize)
        -> u64;

    pub fn khumsafil_raw_clock_fresh(record: *mut u32, record_length: usize) -> u8;
    pub fn khumsafil_raw_clock_offer(
        record: *mut u32,
        record_length: usize,
        application: u8,
        event: u16,
        action: u8,
        time: u32,
    ) -> u16;
    pub fn khumsafil_raw_clock_move(record: *mut u32, record_length: usize, to: u32) -> u16;
    pub fn khumsafil_raw_clock_time(record: *const u32, record_length: usize) -> u64;
    pub fn khumsafil_raw_clock_state(
        record: *const u32,
        record_length: usize,
        application: u8,
    ) -> u16;

    pub fn khumsafil_raw_writer_count(table: u8, length: usize) -> u16;
    pub fn khumsafil_raw_writer_section(
        table: u8,
        extension: u16,
        version: u8,
        body: *const u8,
        body_length: usize,
        k: u8,
        out: *mut u8,
        out_length: usize,
    ) -> u32;
    pub fn khumsafil_raw_writer_file(
        table: u8,
        extension: u16,
        version: u8,
        body: *const u8,
        body_length: usize,
        out: *mut u8,
        out_length: usize,
    ) -> u32;
}
