.assembly extern mscorlib
{
  .ver 4:0:0:0
  .publickeytoken = (B7 7A 5C 56 19 34 E0 89)
}
.assembly shapes
{
  .hash algorithm 0x00008004
  .ver 1:2:3:4
}
.module shapes.dll
.module extern nativelib
.mresource public 'notes.txt'
{
}
.class public auto ansi beforefieldinit Shapes.Pair`2<+ .ctor (class [mscorlib]System.IComparable) T, valuetype .ctor (class [mscorlib]System.ValueType) U> extends [mscorlib]System.Object implements class [mscorlib]System.Collections.Generic.IEnumerable`1<!T>
{
  .custom instance void [mscorlib]System.SerializableAttribute::.ctor() = (01 00 00 00)
  .field private !T first
  .field public static literal int32 Answer = int32(42)
  .field family int32 modreq([mscorlib]System.Runtime.CompilerServices.IsVolatile) modopt([mscorlib]System.Runtime.CompilerServices.IsLong) ready
  .field assembly int32[0...,0...] grid
  .field assembly int32[,] bare
  .field assembly int32[-2...5] low
  .field assembly int32[7,8] sized
  .field famorassem method int32 *(int32, string&) pointer
  .field famandassem native unsigned int* far
  .method public hidebysig specialname rtspecialname instance void .ctor() cil managed
  {
    ldarg.0
    call instance void [mscorlib]System.Object::.ctor()
    ret
  }
  .method public static vararg void Print(string format) cil managed
  {
    ldstr "Hello"
    pop
    ret
  }
  .method public static typedref Reference(int32& by, [out] int32[][] arrays, object o) cil managed
  {
    ldarg.0
    mkrefany int32
    ret
  }
  .method public static int32 modopt([mscorlib]System.Runtime.CompilerServices.IsLong) Modified(int32 modopt([mscorlib]System.Runtime.CompilerServices.IsConst)* p) cil managed
  {
    ldc.i4.0
    ret
  }
  .method public hidebysig newslot virtual final instance !!V Map<class V, (class [mscorlib]System.Exception) W>(class Shapes.Pair`2<!T, !U> other, !!W[] them) cil managed
  {
    ldnull
    unbox.any !!V
    ret
  }
  .method public static pinvokeimpl("nativelib" as "puts_it" ansi cdecl lasterr) int32 Put(string text) cil managed preservesig { }
  .method public hidebysig specialname instance !T get_First() cil managed
  {
    ldnull
    unbox.any !T
    ret
  }
  .method public hidebysig specialname instance void set_First(!T 'value') cil managed
  {
    ret
  }
  .method public hidebysig specialname instance void add_Moved(class [mscorlib]System.EventHandler 'value') cil managed synchronized
  {
    ret
  }
  .method public hidebysig specialname instance void remove_Moved(class [mscorlib]System.EventHandler 'value') cil managed synchronized
  {
    ret
  }
  .property instance !T First()
  {
    .get instance !T Shapes.Pair`2::get_First()
    .set instance void Shapes.Pair`2::set_First(!T)
  }
  .event [mscorlib]System.EventHandler Moved
  {
    .addon instance void Shapes.Pair`2::add_Moved(class [mscorlib]System.EventHandler)
    .removeon instance void Shapes.Pair`2::remove_Moved(class [mscorlib]System.EventHandler)
  }
  .class sequential nested public sealed ansi Inner extends [mscorlib]System.ValueType
  {
    .pack 4
    .size 16
    .field public int64 wide
    .field public char c
  }
}
.class interface public abstract auto ansi Shapes.IShape
{
  .method public hidebysig newslot abstract virtual instance float64 Area() cil managed { }
}
.class explicit public sealed unicode Union extends [mscorlib]System.ValueType
{
  .field [0] public int32 whole
  .field [0] public float32 real
  .field [8] public float64 'odd name'
}
.class public auto ansi abstract sealed serializable specialname 'odd name'.'with $igns' extends [mscorlib]System.Object
{
  .method public static void 'a b'(int32 'x y') cil managed
  {
    ret
  }
}
