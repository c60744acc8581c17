using System;
using System.Collections.Generic;

interface IShape<out T> where T : struct { T Area { get; } }

struct Square : IShape<long>, IEquatable<Square>
{
    readonly int side;
    public Square(int side) { this.side = side; }
    public long Area { get { return (long)side * side; } }
    public bool Equals(Square other) { return side == other.side; }
}

class Node<TKey, TValue> where TKey : IComparable<TKey>
{
    readonly SortedDictionary<TKey, List<TValue>> values = new SortedDictionary<TKey, List<TValue>>();

    public TValue Add(TKey key, TValue value)
    {
        List<TValue> list;
        if (!values.TryGetValue(key, out list)) values[key] = list = new List<TValue>();
        list.Add(value);
        return value;
    }

    public IEnumerable<KeyValuePair<TKey, TValue[]>> All()
    {
        foreach (var pair in values) yield return new KeyValuePair<TKey, TValue[]>(pair.Key, pair.Value.ToArray());
    }
}

static class Program
{
    static T Largest<T>(params T[] items) where T : IComparable<T>
    {
        T best = items[0];
        foreach (T item in items) if (item.CompareTo(best) > 0) best = item;
        return best;
    }

    static long Sum<S>(IEnumerable<S> shapes) where S : IShape<long>
    {
        long sum = 0;
        foreach (S shape in shapes) sum += shape.Area;
        return sum;
    }

    static void Main()
    {
        var node = new Node<string, int?>();
        node.Add("two", 2);
        node.Add("one", null);
        node.Add("two", 22);
        foreach (var pair in node.All()) Console.WriteLine("{0}: {1}", pair.Key, string.Join(",", pair.Value));
        Console.WriteLine(Largest(3, 9, 4) + " " + Largest("x", "yy", "y"));
        Console.WriteLine(Sum(new[] { new Square(3), new Square(4) }));
        Console.WriteLine(typeof(Node<,>).GetGenericArguments()[0].GetGenericParameterConstraints()[0]);
        Func<int, Func<int, int>> add = x => y => x + y;
        Console.WriteLine(add(3)(4) + " " + new Square(5).Equals(new Square(5)));
    }
}
