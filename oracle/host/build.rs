// Links the port's static libraries, whose folder the build script names.
fn main() {
    let folder = std::env::var("PORT_LIBRARIES").expect("PORT_LIBRARIES: the folder of the port's static libraries");
    println!("cargo:rerun-if-env-changed=PORT_LIBRARIES");
    println!("cargo:rustc-link-search=native={folder}");
    for library in ["evf_video", "upgrade", "resave", "held", "openings", "time_cases", "file_play", "file_badge"] {
        println!("cargo:rerun-if-changed={folder}/lib{library}.a");
        println!("cargo:rustc-link-lib=static={library}");
    }
}
