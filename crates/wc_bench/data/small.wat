(module
  (func $add (param i32 i32) (result i32) ;; a sum
    local.get 0 local.get 1 i32.add))
