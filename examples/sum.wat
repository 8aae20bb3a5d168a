;; Reads two numbers and writes their sum as a line.
(module
  (import "swiftown" "read_int" (func $read_int (result i64)))
  (import "swiftown" "write_int" (func $write_int (param i64)))
  (import "swiftown" "write_byte" (func $write_byte (param i32)))
  (func (export "main")
    call $read_int
    call $read_int
    i64.add
    call $write_int
    i32.const 10
    call $write_byte))
