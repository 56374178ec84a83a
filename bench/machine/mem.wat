(module (memory 1 1)
 (func $sum (param i32 i32) (result i32) local.get 0 local.get 1 i32.add)
 (func (export "f") (result i32) (local i32 i32)
 (loop
  local.get 1 i32.const 65532 i32.and local.get 0 i32.store
  local.get 1 local.get 0 i32.const 65532 i32.and i32.load
  call $sum local.set 1
  local.get 0 i32.const 1 i32.add local.tee 0
  i32.const 20000000 i32.lt_u br_if 0)
 local.get 1))
