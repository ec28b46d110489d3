@compute @workgroup_size(2)
fn main(@builtin(local_invocation_index) i: u32) {
  if (i < 1u) {
    workgroupBarrier();
  }
}
