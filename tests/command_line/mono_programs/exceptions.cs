using System;

class Broken : Exception
{
    public readonly int Code;
    public Broken(int code, Exception inner) : base("broken " + code, inner) { Code = code; }
}

static class Program
{
    static int Try(int what)
    {
        try
        {
            try
            {
                if (what == 0) throw new ArgumentException("zero");
                if (what == 1) return checked(int.MaxValue + what);
                if (what == 2) return new int[what][what];
                return 10 / (what - 3);
            }
            catch (ArgumentException error) { throw new Broken(what, error); }
            catch (OverflowException) when (what == 1) { return -1; }
            finally { Console.Write("[finally {0}]", what); }
        }
        catch (Broken error) when (error.Code == 0) { return -100 - error.InnerException.Message.Length; }
        catch (Exception error) { Console.Write(error.GetType()); return -2; }
    }

    static void Main()
    {
        for (int what = 0; what < 6; what++) Console.WriteLine(" " + Try(what));
        try { using (new Guard()) throw new InvalidOperationException("inside"); }
        catch (InvalidOperationException error) { Console.WriteLine(error.Message); }
    }

    sealed class Guard : IDisposable
    {
        public void Dispose() { Console.WriteLine("disposed"); }
    }
}
