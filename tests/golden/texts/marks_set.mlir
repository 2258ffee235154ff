"a"() : () -> ()
// -----
set-attr #1 a (
set-attr #1 a ()x
set-attr #1 a {}
print
set-attr #1 a {}}
set-attr #1 a }
set-attr #1 a ]
set-attr #1 a {a == 1}
set-attr #1 a {a = = 1}
set-attr #1 a @a:::@b
set-attr #1 a @a: :@b
set-attr #1 a @a::@b
print
set-attr #1 a 1 :: i8
set-attr #1 a 1 : : i8
set-attr #1 a () --> ()
set-attr #1 a () - > ()
set-attr #1 a () -> ()
print
set-attr #1 a ()->()
print
set-attr #1 a () ->> ()
set-attr #1 a ?x
set-attr #1 a *
set-attr #1 a >>
set-attr #1 a ,
set-attr #1 a - >
set-attr #1 a ->
set-attr #1 a --1
set-attr #1 a =
set-attr #1 a :
set-attr #1 a ::
set-attr #1 a <
