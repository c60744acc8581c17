// Lists the types of a file with their fields and methods: mono Members.exe FILE
using static System.Console;

static class Members {
    static void Main(string[] arguments) {
        using (var assembly = Clim.Assembly.Open(System.IO.File.ReadAllBytes(arguments[0])))
            foreach (var type in assembly.Rows<Clim.TypeDefRow>()) {
                WriteLine(assembly.FullName(type));
                foreach (var field in assembly.Fields(type)) WriteLine("  " + field.Name);
                foreach (var method in assembly.Methods(type)) WriteLine("  " + method.Name);
            }
    }
}
