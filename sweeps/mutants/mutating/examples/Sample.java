import java.util.ArrayList;
import java.util.List;

/** A shelf of things: what the rules for Java make of it stands in Sample.java.mutants. a < b isn't code here. */
final class Sample {
    private final List<String> things = new ArrayList<>();
    private boolean isOpen = true;

    Sample() {
        super();
    }

    boolean put(String name, int place, int most) {
        synchronized (things) {
            if (things.size() >= most || !isOpen) {
                return false;
            }
            things.add(/* < */ place, name);
            things.notifyAll();
        }
        return place == 0 && name != null;
    }

    synchronized String first(List<String> others) {
        for (int at = 0; at < others.size(); at++) {
            if (others.get(at).isEmpty()) {
                continue;
            }
            return others.get(at);
        }
        return null;
    }

    void close() {
        try {
            put("end", 1, 2);
        } finally {
            isOpen = false;
            things.clear();
        }
    }

    long both(long least) {
        if (least == 1L) {
            throw new IllegalStateException("é 𝄞");
        } else {
            close();
        }
        Runnable shut = () -> close();
        shut.run();
        return isOpen ? least : 2;
    }
}
