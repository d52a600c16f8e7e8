pub fn main() {
    let (rom, mut wram, mut vram) = (vec![0; 1024], vec![0; 65536], vec![0; 262144]);
    let mut machine = vb::Machine::reset();
    let mut memories = vb::Memories { rom: &rom, wram: &mut wram, vram: &mut vram, pak: &mut [] };
    let ran = machine.run(&mut memories, 8).expect("an accepted machine");
    machine.drawing.bkcol = 2;
    machine.drawing.draw_frame(&mut vram, 0).expect("an accepted frame");
    println!("{} instructions, pixel {}", ran.count, vb::pixel(&vram, 0, 0));
}
