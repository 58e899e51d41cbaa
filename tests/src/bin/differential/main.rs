//! Differential tests: the library against the other implementation.
//!
//! Arguments: `[--seed N] [GROUP ...]`.

// the comparison of times calls more of them
#[allow(dead_code)]
mod calls;
mod edges;
#[cfg(feature = "entries")]
mod entries;
mod random_tables;
mod rows;
mod tables;

#[cfg(feature = "compiling")]
mod compiling;
#[cfg(feature = "compiling")]
mod compiling_limits;
#[cfg(feature = "reading")]
mod damaged_files;
#[cfg(feature = "compiling")]
mod deep_rows;
#[cfg(all(feature = "running", feature = "compiling"))]
mod demand_3;
#[cfg(feature = "reading")]
mod file_order;
#[cfg(feature = "operator_records")]
mod operator_records;
#[cfg(feature = "planning")]
mod planning;
#[cfg(feature = "reading")]
mod reading;
#[cfg(feature = "running")]
mod running;
#[cfg(feature = "compiling")]
mod shared_cores;
#[cfg(feature = "running")]
mod stepping;
#[cfg(feature = "reading")]
mod writing;

fn main() {
    let mut tests = Vec::new();
    tests.extend(tables::tests());
    tests.extend(edges::tests());
    tests.extend(random_tables::tests());
    tests.extend(rows::tests());
    #[cfg(feature = "entries")]
    tests.extend(entries::tests());
    #[cfg(feature = "reading")]
    {
        tests.extend(reading::tests());
        tests.extend(damaged_files::tests());
        tests.extend(file_order::tests());
        tests.extend(writing::tests());
    }
    #[cfg(feature = "running")]
    {
        tests.extend(stepping::tests());
        tests.extend(running::tests());
    }
    #[cfg(feature = "compiling")]
    {
        tests.extend(compiling::tests());
        tests.extend(compiling_limits::tests());
        tests.extend(deep_rows::tests());
        tests.extend(shared_cores::tests());
    }
    #[cfg(all(feature = "running", feature = "compiling"))]
    tests.extend(demand_3::tests());
    #[cfg(feature = "planning")]
    tests.extend(planning::tests());
    #[cfg(feature = "operator_records")]
    tests.extend(operator_records::tests());
    std::process::exit(saqwillo_tests::harness::run(&tests));
}
