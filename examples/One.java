class One { static int main() { return 1 + 2; } }
