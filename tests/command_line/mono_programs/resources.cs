using System;
using System.IO;
using System.Reflection;

static class Program
{
    static void Main()
    {
        var self = Assembly.GetExecutingAssembly();
        foreach (string name in self.GetManifestResourceNames())
        {
            using (var reader = new StreamReader(self.GetManifestResourceStream(name)))
                Console.WriteLine(name + ": " + reader.ReadToEnd().Length + " " + self.GetManifestResourceInfo(name).ResourceLocation);
        }
    }
}
