import java.util.function.IntSupplier;

/** Methods of many shapes by Java's own monitor. Each of the nine calls in `all` is one visit, whatever ends it. */
class PlainShapes {
    private static final int MANY = 9;
    private int number;

    void all() {
        mixed(1, 2, 3, new int[] {4}, new String[][] {{"5"}}, true, 'c', (byte) 6, (short) 7);
        mixed(1, 2, 3, new int[] {4}, new String[][] {{"none"}}, false, 'c', (byte) 6, (short) 7);
        try {
            mixed(-1, 2, 3, new int[] {4}, new String[][] {{"5"}}, false, 'c', (byte) 6, (short) 7);
        } catch (IllegalStateException expected) {
            number++;
        }
        try {
            nested(null);
        } catch (NullPointerException expected) {
            number++;
        }
        nested("word");
        beginsWithLoop();
        greatest("a", "b");
        atLast();
        nothing();
    }

    private synchronized long mixed(long first, double second, float third, int[] some, String[][] words, boolean isIt,
                                    char mark, byte small, short shorter) {
        long sum = first;
        if (first < 0) throw new IllegalStateException("below 0");
        for (int it : some) sum += it;
        try {
            sum += Integer.parseInt(words[0][0]);
        } catch (NumberFormatException none) {
            sum--;
        } finally {
            sum++;
        }
        IntSupplier later = () -> (int) second + mark + small + shorter + number;
        return isIt ? later.getAsInt() : sum + (long) third;
    }

    private void nested(Object given) {
        synchronized (this) {
            synchronized (this) {
                if (given == null) throw new NullPointerException("given");
                number++;
            }
        }
    }

    private synchronized void beginsWithLoop() {
        while (number < MANY) number++;
    }

    private synchronized <T extends Comparable<T>> T greatest(T one, T other) {
        return one.compareTo(other) > 0 ? one : other;
    }

    private synchronized int atLast() {
        try {
            return number;
        } finally {
            number++;
        }
    }

    private synchronized void nothing() { }

    static synchronized void visit() { }

    /** A class that is sealed, since its constant has a body. */
    enum Sealed {
        ONE {
            @Override synchronized void visit() { }
        };

        abstract void visit();
    }
}
