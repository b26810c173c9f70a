package cf.testing;

import java.util.HashSet;
import java.util.Set;
import java.util.function.LongFunction;
import java.util.function.Supplier;
import java.util.stream.Collectors;

/** Random programs that the kit has to bring to the same ends with and without what it leaves out. */
final class Compared {
    private static final int SECONDS = 600;

    private final String what;
    private final boolean toFirstFailure;
    private long plainOrders, tried;
    private int programs, tooLarge, wrong;

    /** A program: one run of it in a world gives what tells the run's end. */
    interface Program {
        Supplier<String> begin(World world);
    }

    private Compared(String what, boolean toFirstFailure) {
        this.what = what;
        this.toFirstFailure = toFirstFailure;
    }

    /**
     * Compares the programs of so many seeds from the first one on, of at most so many orders: FIRST COUNT MOST. They are compared up to their first
     * failure, or up to the last. The process ends with status 1 if one has other ends.
     */
    static void main(String what, boolean toFirstFailure, String[] args, LongFunction<Program> made) {
        Compared compared = new Compared(what, toFirstFailure);
        long first = Long.parseLong(args[0]), count = Long.parseLong(args[1]);
        for (long seed = first; seed < first + count; seed++) {
            compared.compare(seed, made.apply(seed), Integer.parseInt(args[2]));
        }
        System.out.println(compared.programs + " " + what + " of " + compared.plainOrders + " orders have the same ends in " + compared.tried + " runs; "
                + compared.tooLarge + " were too large; " + compared.wrong + " otherwise");
        System.exit(compared.wrong == 0 ? 0 : 1);
    }

    private void compare(long seed, Program program, int most) {
        Report plain = orders(program, most).unreduced().run();
        boolean ends = !toFirstFailure || plain.failed().isEmpty();
        if (ends && !plain.whole()) {
            tooLarge++;
            return;
        }
        Report reduced = orders(program, 2 * most).run();
        programs++;
        plainOrders += plain.orders();
        tried += reduced.orders() + reduced.cut();
        if (!whys(plain).equals(whys(reduced)) || ends && !(reduced.whole() && plain.ends().keySet().equals(reduced.ends().keySet()))) {
            wrong++;
            Set<Object> missed = new HashSet<>(plain.ends().keySet());
            missed.removeAll(reduced.ends().keySet());
            System.out.println(what + ", seed " + seed + ": " + plain.ends().size() + " ends and " + whys(plain) + ", and with orders left out "
                    + reduced.ends().size() + " and " + whys(reduced) + (reduced.whole() ? "" : ", not whole") + "; missed " + missed);
        }
    }

    private Orders orders(Program program, int most) {
        Supplier<?>[] end = new Supplier<?>[1];
        return Orders.of(world -> end[0] = program.begin(world)).failures(toFirstFailure ? 1 : Integer.MAX_VALUE).asFound().seconds(SECONDS).most(most)
                .ends(world -> end[0].get());
    }

    private static Set<String> whys(Report report) {
        return report.failed().stream().map(Failure::why).collect(Collectors.toSet());
    }
}
