import org.joe_e.Immutable;

/** A label that claims to be immutable, and leaks in four ways. */
public class Leaky implements Immutable {
    static int made;
    private String text;

    Leaky(Registry registry, String text) {
        this.text = text;
        registry.last = this;
    }

    public int hash() {
        return System.identityHashCode(this);
    }
}

class Registry {
    Object last;
}
