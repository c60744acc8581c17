using System;
using System.Collections.Generic;
using System.Linq;
using System.Linq.Expressions;

static class Program
{
    static void Main()
    {
        string[] words = "the quick brown fox jumps over the lazy dog".Split(' ');
        var groups = from word in words
                     group word by word.Length into sized
                     orderby sized.Key descending
                     select new { Size = sized.Key, Words = string.Join("/", sized.Distinct().OrderBy(it => it, StringComparer.Ordinal)) };
        foreach (var it in groups) Console.WriteLine(it);
        Console.WriteLine(Enumerable.Range(1, 10).Where(n => n % 2 == 1).Select(n => n * n).Aggregate(0, (sum, n) => sum + n));
        Expression<Func<int, int>> square = n => n * n + 1;
        Console.WriteLine(square + " " + square.Compile()(6));
        var pairs = words.Zip(words.Skip(1), (left, right) => left[0] + "" + right[0]).ToDictionary(it => it, it => it.Length * 2);
        Console.WriteLine(string.Join(",", pairs.Keys));
        dynamic value = 3;
        Console.WriteLine(words.Join(new[] { "fox", "cat" }, a => a, b => b, (a, b) => a).Single() + value.ToString());
    }
}
