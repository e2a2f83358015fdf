class Shapes {
    interface Shape {
        int area();
    }

    static class Square implements Shape {
        final int side;

        Square(int side) {
            this.side = side;
        }

        public int area() {
            return side * side;
        }
    }

    static int sum(Shape[] shapes) {
        int sum = 0;
        for (Shape shape : shapes) {
            sum += shape.area();
        }
        return sum;
    }

    static int main() {
        final int height = 4;
        class Strip implements Shape {
            public int area() {
                return 5 * height;
            }
        }
        return sum(new Shape[] { new Square(3), new Square(4), new Strip() });
    }
}
