(module
  (type (;0;) (func (param i32) (result i32)))
  (rec
    (type (;1;) (sub (struct (field i32 (mut i64)))))
    (type (;2;) (sub final 1 (struct (field i32 (mut i64) f32))))
  )
  (import "(a" "b\"" (func (;0;) (type 0) (param i32) (result i32)))
  (import "c"
    (item "d" (;1;))
    (item "e" (;2;))
    (func (type 0))
  )
  (table (;0;) 2 funcref)
  (memory (;0;) 1)
  (export "f" (func 3))
  (func (;3;) (type 0) (param i32) (result i32)
    (local i64)
    loop (result i32)
      i32.const 65532
      i32.load offset=0 align=4
      i32.const 65533
      i32.load offset=0 align=4
      i32.const 77
      i32.store16 offset=0 align=2
      ref.null 2
      struct.get 2 0
      br_if 0
      i32.const 1
      table.get 0
      drop
      local.get 0
      call 3
      i32.const 0
      call_indirect 0 (type 0)
    end
    block (result i32)
      try_table (catch_all_ref 0)
        f32.const 0x1p-149
        f64.const 0x1.8p+1
        br 0
        f32.add
        drop
      end
      struct.new_default 1
      ref.cast (ref 2)
      br_on_cast_fail 1 (ref 1) (ref 2)
      ref.null none
      ref.test (ref 1)
      return
    end
    drop
  )
)
