// What the works do, so many times each. This file is a part of two modules, in which `library` is the Rust crate and this one.
use super::black_box;
use library::*;

fn memory(pages: u64) -> Memory {
    let mut builder = MemoryType::builder();
    builder.min(pages);
    Memory::new(builder.build().unwrap(), &mut ResourceLimiterRef::default()).unwrap()
}

fn counted() -> Memory {
    let mut memory = memory(black_box(1));
    memory.data_mut().iter_mut().enumerate().for_each(|(i, byte)| *byte = i as u8);
    memory
}

fn meter() -> Fuel {
    let costs = CustomFuelCosts { bytes_copied_per_fuel: 64, fuel_per_bytes_translated: 7, fuel_per_bytes_validated: 2 };
    let mut fuel = Fuel::new(true, FuelCostsProvider::custom(costs));
    fuel.set_fuel(u64::MAX).unwrap();
    fuel
}

fn sum_of_bytes(bytes: &[u8]) -> u64 {
    bytes.iter().map(|&byte| u64::from(byte)).sum()
}

pub unsafe extern "C" fn memory_grow_page(turns: u64) -> u64 {
    let mut sum = 0_u64;
    for _ in 0..turns {
        let (mut memory, mut fuel) = (memory(0), meter());
        for _ in 0..16 {
            sum += memory.grow(1, Some(&mut fuel), &mut ResourceLimiterRef::default()).unwrap();
        }
        sum += u64::MAX - fuel.get_fuel().unwrap();
    }
    sum
}

pub unsafe extern "C" fn memory_write_64(turns: u64) -> u64 {
    let (mut memory, mut bytes) = (counted(), [7_u8; 64]);
    for i in 0..turns {
        bytes[0] = i as u8;
        memory.write((i * 72 % 65472) as usize, &bytes).unwrap();
    }
    sum_of_bytes(memory.data())
}

pub unsafe extern "C" fn memory_write_4096(turns: u64) -> u64 {
    let (mut memory, mut bytes) = (counted(), [7_u8; 4096]);
    for i in 0..turns {
        bytes[0] = i as u8;
        memory.write((i * 72 % 61440) as usize, &bytes).unwrap();
    }
    sum_of_bytes(memory.data())
}

pub unsafe extern "C" fn memory_read_64(turns: u64) -> u64 {
    let (memory, mut bytes, mut sum) = (counted(), [0_u8; 64], 0_u64);
    for i in 0..turns {
        memory.read((i * 72 % 65472) as usize, &mut bytes).unwrap();
        sum = sum.wrapping_add(u64::from(bytes[(i % 64) as usize]));
    }
    sum
}

pub unsafe extern "C" fn fuel_consume(turns: u64) -> u64 {
    let mut fuel = meter();
    let (fuel, mut sum) = (black_box(&mut fuel), 0_u64);
    for i in 0..turns {
        sum = sum.wrapping_add(fuel.consume_fuel(|costs| costs.fuel_for_copying_values::<u8>(i & 4095)).unwrap());
    }
    sum
}

pub unsafe extern "C" fn fuel_consume_unchecked(turns: u64) -> u64 {
    let mut fuel = meter();
    let (fuel, mut sum) = (black_box(&mut fuel), 0_u64);
    for i in 0..turns {
        sum = sum.wrapping_add(fuel.consume_fuel_unchecked(i & 7).unwrap());
    }
    sum
}

pub unsafe extern "C" fn vector_load_store(turns: u64) -> u64 {
    let mut memory = counted();
    let data = black_box(memory.data_mut());
    for i in 0..turns {
        let vector = simd::v128_load(data, i * 16 & 0x7ff0, i & 1).unwrap();
        simd::v128_store(data, i * 48 & 0x7ff0, i & 1, vector).unwrap();
    }
    sum_of_bytes(data)
}

pub unsafe extern "C" fn i64_div_s(turns: u64) -> u64 {
    let mut x = 0x7fff_1234_5678_9abc_i64;
    for i in 0..turns {
        x = x.wrapping_add(wasm::i64_div_s(x, i as i64 | 1).unwrap());
    }
    x as u64
}

pub unsafe extern "C" fn i64_mul_wide_u(turns: u64) -> u64 {
    let mut x = 0x7fff_1234_5678_9abc_i64;
    for i in 0..turns {
        let (low, high) = wasm::i64_mul_wide_u(x, i as i64);
        x = low ^ high ^ 0x55;
    }
    x as u64
}

fn table(size: u32) -> Table {
    let init = TypedRawRef::new(RawRef::from(3), RefType::Func);
    Table::new(TableType::new(RefType::Func, black_box(size), None), init, &mut ResourceLimiterRef::default()).unwrap()
}

fn numbered(size: u32) -> Table {
    let mut table = table(size);
    for i in 0..size {
        table.set_raw(u64::from(i), RawRef::from(i)).unwrap();
    }
    table
}

fn sum_of_table(table: &Table) -> u64 {
    (0..table.size()).fold(0, |sum: u64, i| sum.wrapping_mul(31).wrapping_add(u64::from(u32::from(table.get(i).unwrap().raw()))))
}

pub unsafe extern "C" fn table_fill_1000(turns: u64) -> u64 {
    let (mut table, mut fuel) = (numbered(1100), meter());
    for i in 0..turns {
        table.fill_raw(i % 100, RawRef::from(i as u32), 1000, Some(&mut fuel)).unwrap();
    }
    sum_of_table(&table)
}

pub unsafe extern "C" fn table_copy_1000(turns: u64) -> u64 {
    let (mut table, source, mut fuel) = (table(1100), numbered(1100), meter());
    for i in 0..turns {
        Table::copy(&mut table, i % 100, &source, i * 7 % 100, 1000, Some(&mut fuel)).unwrap();
    }
    sum_of_table(&table)
}

fn copies_within(turns: u64, len: u32) -> u64 {
    let (mut table, mut fuel) = (numbered(len + 100), meter());
    for i in 0..turns {
        table.copy_within(i % 100, i * 7 % 100, u64::from(len), Some(&mut fuel)).unwrap();
    }
    sum_of_table(&table)
}

pub unsafe extern "C" fn table_copy_within_10(turns: u64) -> u64 {
    copies_within(turns, black_box(10))
}

pub unsafe extern "C" fn table_copy_within_1000(turns: u64) -> u64 {
    copies_within(turns, black_box(1000))
}

pub unsafe extern "C" fn table_copy_within_100000(turns: u64) -> u64 {
    copies_within(turns, black_box(100_000))
}

pub unsafe extern "C" fn table_get_set(turns: u64) -> u64 {
    let mut table = numbered(1100);
    for i in 0..turns {
        let element = table.get(i % 1100).unwrap();
        let number = u32::from(element.raw()).wrapping_add(i as u32);
        table.set(i * 3 % 1100, TypedRawRef::new(RawRef::from(number), element.ty())).unwrap();
    }
    sum_of_table(&table)
}

pub unsafe extern "C" fn table_grow_16(turns: u64) -> u64 {
    let mut sum = 0_u64;
    for _ in 0..turns {
        let (mut table, mut fuel) = (table(0), meter());
        for i in 0..16 {
            sum += table.grow_raw(16, RawRef::from(i), Some(&mut fuel), &mut ResourceLimiterRef::default()).unwrap();
        }
        sum = sum.wrapping_add(sum_of_table(&table));
    }
    sum
}
