// Renames the types of a file that have a name, and writes the copy: mono Rename.exe FILE OLD NEW COPY
using System.IO;
using System.Linq;
using static System.Console;

static class Rename {
    static void Main(string[] arguments) {
        string path = arguments[0], old = arguments[1], name = arguments[2], copy = arguments[3];
        using (var assembly = Clim.Assembly.Open(File.ReadAllBytes(path))) {
            var tables = Clim.Tables.Of(assembly);
            foreach (var type in assembly.Rows<Clim.TypeDefRow>().Where(it => it.TypeName == old))
                tables.Set(type.Token, "TypeName", name);
            File.WriteAllBytes(copy, assembly.Embed(tables.Root()));
        }
        using (var assembly = Clim.Assembly.Open(File.ReadAllBytes(copy)))
            foreach (var type in assembly.Rows<Clim.TypeDefRow>()) WriteLine(assembly.FullName(type));
    }
}
