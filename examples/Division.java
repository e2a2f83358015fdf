class Division {
    static final int HALF = 1 / zero();

    static int zero() {
        return 0;
    }

    static int main() {
        return HALF;
    }
}
