//! Writes the example task files, and what the compiling program prints for
//! each, into a folder: `example_files DIR`.

use std::path::Path;

use saqwillo_tests::examples;
use saqwillo_tests::file::file_of;
use saqwillo_tests::print::program;

fn main() -> std::io::Result<()> {
    let folder = std::env::args().nth(1).expect("usage: example_files DIR");
    let folder = Path::new(&folder);
    std::fs::create_dir_all(folder)?;
    for (name, task) in [
        ("whole", examples::whole()),
        ("running", examples::running()),
        ("bicycle", examples::bicycle()),
        ("flat_effect", examples::flat_effect()),
        ("effect_normal_form", examples::effect_normal_form()),
        ("journey", examples::journey()),
        ("percents", examples::percents()),
    ] {
        let file = file_of(&task.head, &task.tables);
        std::fs::write(folder.join(name).with_extension("out"), program(&file))?;
        std::fs::write(folder.join(name).with_extension("task"), file)?;
    }
    Ok(())
}
