//! The functions of libjoftaki_c.a, as include/joftaki.h declares them.

/// First way and next way have the same arguments.
macro_rules! way_function {
    ($name:ident) => {
        pub fn $name(
            plan: *const u8,
            plan_length: usize,
            n: usize,
            t: usize,
            g: usize,
            h: usize,
            s: usize,
            z: usize,
            hops: *mut usize,
            way: *mut u16,
            way_length: usize,
            work: *mut u64,
            work_length: usize,
        ) -> u32;
    };
}

#[link(name = "joftaki_c", kind = "static")]
extern "C" {
    pub fn joftaki_check(plan: *const u8, plan_length: usize, n: usize, t: usize) -> u32;
    pub fn joftaki_reach(
        plan: *const u8,
        plan_length: usize,
        n: usize,
        t: usize,
        g: usize,
        h: usize,
        s: usize,
        hops: *mut u16,
        hops_length: usize,
        counts: *mut u64,
        counts_length: usize,
        station_hops: *mut u16,
        station_hops_length: usize,
        station_counts: *mut u64,
        station_counts_length: usize,
    ) -> u32;
    pub fn joftaki_row(
        table: *const u64,
        table_length: usize,
        n: usize,
        t: usize,
        v: usize,
        offset: *mut usize,
        length: *mut usize,
    ) -> u32;
    pub fn joftaki_row_number(
        table: *const u64,
        table_length: usize,
        n: usize,
        t: usize,
        v: usize,
    ) -> u32;
    pub fn joftaki_pair(
        plan: *const u8,
        plan_length: usize,
        n: usize,
        t: usize,
        g: usize,
        h: usize,
        s: usize,
        z: usize,
        hops: *mut usize,
        count: *mut u64,
        through: *mut u64,
        through_length: usize,
        work: *mut u64,
        work_length: usize,
    ) -> u32;
    pub fn joftaki_loads(
        plan: *const u8,
        plan_length: usize,
        n: usize,
        t: usize,
        g: usize,
        h: usize,
        pairs: *mut u64,
        pairs_length: usize,
        loads: *mut u64,
        loads_length: usize,
        work: *mut u64,
        work_length: usize,
    ) -> u32;
    pub fn joftaki_partial_loads(
        plan: *const u8,
        plan_length: usize,
        n: usize,
        t: usize,
        g: usize,
        h: usize,
        k: usize,
        pairs: *mut u64,
        pairs_length: usize,
        loads: *mut u64,
        loads_length: usize,
        work: *mut u64,
        work_length: usize,
    ) -> u32;
    pub fn joftaki_busiest(
        plan: *const u8,
        plan_length: usize,
        n: usize,
        t: usize,
        g: usize,
        h: usize,
        station: *mut usize,
        work: *mut u64,
        work_length: usize,
    ) -> u32;
    pub fn joftaki_through_set(
        plan: *const u8,
        plan_length: usize,
        n: usize,
        t: usize,
        g: usize,
        h: usize,
        s: usize,
        z: usize,
        count: *mut u64,
        set: *const u8,
        set_length: usize,
        work: *mut u64,
        work_length: usize,
    ) -> u32;
    pub fn joftaki_foremost(
        plan: *const u8,
        plan_length: usize,
        n: usize,
        t: usize,
        g: usize,
        s: usize,
        z: usize,
        arrival: *mut usize,
        hops: *mut usize,
        count: *mut u64,
        through: *mut u64,
        through_length: usize,
        work: *mut u64,
        work_length: usize,
    ) -> u32;
    pub fn joftaki_verdict(
        plan: *const u8,
        plan_length: usize,
        n: usize,
        t: usize,
        g: usize,
        h: usize,
        s: usize,
        z: usize,
        verdict: *mut u32,
        list: *const u16,
        list_length: usize,
        work: *mut u64,
        work_length: usize,
    ) -> u32;
    pub fn joftaki_take_in(
        plan: *const u8,
        plan_length: usize,
        n: usize,
        t: usize,
        c: u16,
        table: *mut u16,
        table_length: usize,
    ) -> u32;
    pub fn joftaki_take_out(
        plan: *const u8,
        plan_length: usize,
        n: usize,
        t: usize,
        table: *mut u16,
        table_length: usize,
    ) -> u32;
    pub fn joftaki_struck_out(
        plan: *const u8,
        plan_length: usize,
        n: usize,
        t: usize,
        g: usize,
        h: usize,
        position: usize,
        pairs: *mut u64,
        changes: *mut i64,
        changes_length: usize,
        work: *mut u64,
        work_length: usize,
    ) -> u32;
    pub fn joftaki_drawn_loads(
        plan: *const u8,
        plan_length: usize,
        n: usize,
        t: usize,
        g: usize,
        h: usize,
        pairs: *mut u64,
        pairs_length: usize,
        loads: *mut u64,
        loads_length: usize,
        records: *mut u8,
        records_length: usize,
        work: *mut u64,
        work_length: usize,
    ) -> u32;
    pub fn joftaki_read_record(
        bytes: *const u8,
        length: usize,
        station: *mut usize,
        load: *mut u64,
        pairs: *mut u64,
    ) -> u32;
    way_function!(joftaki_first_way);
    way_function!(joftaki_next_way);
}
