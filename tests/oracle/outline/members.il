.assembly extern mscorlib
{
  .ver 4:0:0:0
  .publickeytoken = (B7 7A 5C 56 19 34 E0 89)
}
.assembly extern other
{
  .ver 1:0:0:0
  .locale "de-DE"
}
.assembly members
{
  .hash algorithm 0x00008004
  .ver 9:8:7:6
  .locale "en-GB"
}
.module members.dll
.module extern second
.field public static int32 GlobalField
.method public static void GlobalMethod() cil managed
{
  ret
}
.class private abstract auto ansi Base
{
  .method family hidebysig newslot virtual strict instance void Strict() cil managed
  {
    ret
  }
  .method privatescope static void Hidden() cil managed
  {
    ret
  }
  .method famandassem hidebysig static void Both() cil managed noinlining
  {
    ret
  }
  .method famorassem hidebysig static void Either() cil managed forwardref synchronized
  {
    ret
  }
  .field privatescope int32 scoped
  .field public notserialized initonly static class Base[][,] many
  .field public method unmanaged cdecl int32 *(int32) native1
  .field public method unmanaged stdcall void *(native int, float32*) native2
  .field public method vararg int32 *(int32) native3
  .field public class [mscorlib]System.Collections.Generic.Dictionary`2<class [mscorlib]System.Collections.Generic.List`1<int32[]>, valuetype [mscorlib]System.Nullable`1<bool>> deep
  .field public void* nothing
  .field public void** more
  .field public uint8 u1
  .field public int8 i1
  .field public uint16 u2
  .field public uint32 u4
  .field public uint64 u8
  .field public float32 r4
  .field public native int ni
  .field public native unsigned int nu
  .field public typedref tr
  .field public static literal string text = "with // and = and 'quotes' { }"
  .field public static literal char ch = char(0x41)
  .field public marshal(lpstr) string marshalled
  .field public static int32 data at D_1
}
.data D_1 = int32(7)
.class public auto ansi Derived extends Base
{
  .method public hidebysig specialname instance int32 get_Item(int32 index, string name) cil managed
  {
    ldc.i4.0
    ret
  }
  .method public hidebysig specialname instance void set_Item(int32 index, string name, int32 'value') cil managed
  {
    ret
  }
  .property instance int32 Item(int32, string)
  {
    .get instance int32 Derived::get_Item(int32, string)
    .set instance void Derived::set_Item(int32, string, int32)
  }
  .property specialname rtspecialname int32 Static()
  {
  }
  .event specialname rtspecialname class [mscorlib]System.EventHandler Rare
  {
    .addon instance void Derived::add_Rare(class [mscorlib]System.EventHandler)
    .removeon instance void Derived::remove_Rare(class [mscorlib]System.EventHandler)
    .fire instance void Derived::raise_Rare()
    .other instance void Derived::other_Rare()
  }
  .method public hidebysig specialname instance void add_Rare(class [mscorlib]System.EventHandler h) cil managed
  {
    ret
  }
  .method public hidebysig specialname instance void remove_Rare(class [mscorlib]System.EventHandler h) cil managed
  {
    ret
  }
  .method public hidebysig specialname instance void raise_Rare() cil managed
  {
    ret
  }
  .method public hidebysig specialname instance void other_Rare() cil managed
  {
    ret
  }
  .method public hidebysig virtual instance void Replace() cil managed
  {
    .override Base::Strict
    ret
  }
  .method public hidebysig specialname rtspecialname instance void .ctor() cil managed
  {
    ret
  }
  .class nested famandassem auto ansi interface abstract A
  {
    .class nested famorassem auto ansi sealed B extends [mscorlib]System.Object
    {
      .class nested family auto ansi abstract C extends Derived
      {
        .field public class Derived/A/B/C self
      }
    }
  }
}
.class public auto ansi sealed Call extends [mscorlib]System.MulticastDelegate
{
  .method public hidebysig specialname rtspecialname instance void .ctor(object 'object', native int 'method') runtime managed { }
  .method public hidebysig newslot virtual instance void Invoke() runtime managed { }
}
.class public auto ansi import beforefieldinit Imported extends [mscorlib]System.Object
{
  .method public hidebysig static pinvokeimpl("second" nomangle autochar winapi) void Same(int32) cil managed preservesig { }
  .method public hidebysig static pinvokeimpl("second" as "#7" unicode thiscall) void ByNumber(int32, int32) cil managed { }
}
