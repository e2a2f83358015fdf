import host.Console;

/** Counts, and tells what it counted to the console that it was handed. */
public class Counter {
    private int n;
    private final Console out;

    public Counter(Console out) {
        this.out = out;
    }

    public int inc() {
        n = n + 1;
        out.print("n=" + n);
        return n;
    }
}
