class Endless { static int again(int n) { return again(n + 1); } static int main() { return again(0); } }
