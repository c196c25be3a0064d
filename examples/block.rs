// Renders a block of the super square and prints what it was told: the answer, Drift's index, cycles, rises, falls, cuts, late.
// The names carry the version of include/navuloqu.h that these declarations follow: with an archive of another version they do not link.
extern "C" {
    #[link_name = "navuloqu_3_super_square_init"]
    fn super_square_init(state: *mut [u32; 6]);
    #[must_use]
    #[link_name = "navuloqu_3_super_square_render"]
    fn super_square_render(state: *mut [u32; 6], frequency: f32, shape: f32, out: *mut f32, count: usize, result: *mut [u32; 7]) -> u32;
}

fn main() {
    let (mut state, mut result, mut out) = ([0; 6], [0; 7], [0.0; 64]);
    let answer = unsafe {
        super_square_init(&mut state);
        super_square_render(&mut state, 0.01, 0.5, out.as_mut_ptr(), out.len(), &mut result)
    };
    if answer != 0 {
        eprintln!("the block was refused with {answer}: the buffer holds what it held before");
        std::process::exit(1);
    }
    let [_, drift_index, cycles, rises, falls, cuts, late] = result;
    println!("{answer} {drift_index} {cycles} {rises} {falls} {cuts} {late}, last sample {}", out[63]);
}
