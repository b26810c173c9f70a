package cf.testing;

import static java.util.concurrent.TimeUnit.MILLISECONDS;
import static java.util.concurrent.TimeUnit.SECONDS;

import cf.service.Request;
import cf.service.Stage;
import java.util.ArrayList;
import java.util.Arrays;
import java.util.Collections;
import java.util.HashMap;
import java.util.HashSet;
import java.util.List;
import java.util.Map;
import java.util.Set;

/** Twenty services. Eighteen are those of the kit for Python, which has two on a loop; here two pass a stage between pools instead. */
final class Services {
    private static final String DEADLOCK = "deadlock";
    static final Planted ALL = new Planted()
            .with("charged twice", Services::charged, "charged at most once")
            .with("a loser that keeps its connection", Services::hedged, "no connection is left")
            .with("a stale cache", Services::cached, "the cache isn't stale")
            .with("cancelled and shipped", Services::shipped, "what is told to be cancelled isn't shipped")
            .with("a lost count", Services::counted, "both are counted")
            .with("a lost wake", Services::woken, "a reader that waits is woken")
            .with("closed by the winner", Services::closed, "the file is closed")
            .with("locks in opposite orders", Services::locked, DEADLOCK)
            .with("a wait in a pool of one", Services::pooled, DEADLOCK, orders -> orders.workers(1))
            .with("told otherwise than written", Services::defaulted, "what is told is what is written")
            .with("the failure that comes first", Services::replicated, "one good answer is enough")
            .with("half written", Services::booked, "both are written or none")
            .with("made twice", Services::made, "one is made")
            .with("an older message overwrites", Services::stored, "the last message stands")
            .with("overdrawn", Services::withdrawn, "never overdrawn")
            .with("told after its end", Services::listened, "told after its end")
            .with("a lost update behind an answer", Services::added, "both are added")
            .with("never released", Services::released, "it is released")
            .with("refunded before the charge", Services::refunded, "what isn't paid is refunded")
            .with("handled twice", Services::delivered, "handled once");

    /** What fails. */
    static final class Outage extends RuntimeException {
        private static final long serialVersionUID = 1;

        Outage(String what) {
            super(what);
        }
    }

    private Services() {}

    /** A payment that takes too long is tried again. */
    static void charged(World world, boolean byKey) {
        List<Integer> charges = new ArrayList<>();
        Stage<Integer> price = world.service().request("order 17").adopt(world.arrives(4900, "price"));
        Stage<Integer> paid = price.thenApply(cents -> charge(charges, cents, byKey)).named("charge").orTimeout(2, SECONDS);
        world.check(() -> charges.size() <= 1, "charged at most once");
        world.settles(paid.exceptionally(error -> charge(charges, 4900, byKey)).named("charge again"));
    }

    private static int charge(List<Integer> charges, int cents, boolean byKey) {
        if (!byKey || charges.isEmpty()) {
            charges.add(cents);
        }
        return cents;
    }

    /** A second backend is asked where the first one is slow. Each answer holds a connection until it is given back. */
    private static void hedged(World world, boolean givesBack) {
        List<String> held = new ArrayList<>();
        Request request = world.service().request("hedge");
        Stage<String> one = request.supplyAsync(() -> asked(held, "one")).named("ask one");
        Stage<String> two = request.<String>promise().named("timer").completeOnTimeout("two", 100, MILLISECONDS)
                .thenApply(name -> asked(held, name)).named("ask two");
        world.atEnd(held::isEmpty, "no connection is left");
        if (givesBack) {
            world.settles(one.thenApply(held::remove), two.thenApply(held::remove));
        } else {
            world.settles(one.applyToEither(two, held::remove));
        }
    }

    private static String asked(List<String> held, String name) {
        held.add(name);
        return name;
    }

    /** A cache is filled by a load that began before what it holds was changed. */
    private static void cached(World world, boolean seesVersion) {
        int[] source = {1, 1};
        Map<String, Integer> cache = new HashMap<>();
        Stage<int[]> loaded = world.service().request("cache").supplyAsync(source::clone).named("load");
        world.settles(loaded.thenAcceptAsync(it -> {
            if (!seesVersion || it[1] == source[1]) {
                cache.put("value", it[0]);
            }
        }).named("keep"));
        world.calls("an update", () -> {
            source[0] = source[1] = 2;
            cache.clear();
        });
        world.atEnd(() -> cache.getOrDefault("value", 2) == source[0], "the cache isn't stale");
    }

    /** An order is cancelled while its function runs. */
    private static void shipped(World world, boolean asks) {
        List<String> told = new ArrayList<>(), shipped = new ArrayList<>();
        Stage<Boolean> ship = world.service().request("order").supplyAsync(() -> shipped.add("17")).named("ship");
        world.calls("the client", () -> {
            boolean did = ship.complete(false);
            if (did && !asks || did && shipped.isEmpty()) {
                told.add("cancelled");
            }
        });
        world.atEnd(() -> told.isEmpty() || shipped.isEmpty(), "what is told to be cancelled isn't shipped");
        world.settles(ship);
    }

    /** Two functions count in two steps. */
    private static void counted(World world, boolean inOne) {
        int[] count = {0};
        Request request = world.service().request("count");
        Runnable add = () -> {
            int before = count[0];
            if (!inOne) {
                world.point();
            }
            count[0] = before + 1;
        };
        world.atEnd(() -> count[0] == 2, "both are counted");
        world.settles(request.runAsync(add).named("one"), request.runAsync(add).named("two"));
    }

    /** A reader that finds nothing leaves a promise to be woken by, and the writer has been there before. */
    private static void woken(World world, boolean looksAgain) {
        List<String> items = new ArrayList<>();
        List<Stage<String>> waiting = new ArrayList<>();
        Request request = world.service().request("queue");
        Stage<String> woken = request.<String>promise().named("woken");
        Stage<Void> reader = request.runAsync(() -> {
            if (!items.isEmpty()) {
                woken.complete(items.remove(0));
                return;
            }
            world.point();
            waiting.add(woken);
            if (looksAgain && !items.isEmpty()) {
                woken.complete(items.remove(0));
            }
        }).named("a reader");
        world.calls("a writer", () -> {
            items.add("x");
            if (!waiting.isEmpty()) {
                waiting.remove(0).complete(items.remove(0));
            }
        });
        world.atEnd(() -> woken.isDone() || waiting.isEmpty(), "a reader that waits is woken");
        world.settles(reader);
    }

    /** The winner of two closes what the loser still uses. */
    private static void closed(World world, boolean waits) {
        boolean[] isOpen = {true};
        Request request = world.service().request("file");
        Stage<String> head = request.supplyAsync(() -> read(isOpen, "head")).named("head");
        Stage<String> tail = request.supplyAsync(() -> read(isOpen, "tail")).named("tail");
        Stage<?> done = waits ? request.allOf(head, tail) : request.anyOf(head, tail);
        world.settles(head, tail, done.thenRunAsync(() -> isOpen[0] = false).named("close"));
    }

    private static String read(boolean[] isOpen, String name) {
        if (!isOpen[0]) {
            throw new AssertionError("the file is closed");
        }
        return name;
    }

    /** A lock whose owners wait by stages. */
    private static final class Lock {
        private final Request request;
        private final String name;
        private Stage<Void> holder;

        Lock(Request request, String name) {
            this.request = request;
            this.name = name;
        }

        void take() {
            while (holder != null) {
                holder.join();
            }
            holder = request.<Void>promise().named(name);
        }

        void free() {
            Stage<Void> held = holder;
            holder = null;
            held.complete(null);
        }
    }

    /** Two functions take two locks. */
    private static void locked(World world, boolean inOrder) {
        Request request = world.service().request("transfer");
        Lock one = new Lock(request, "account 1"), two = new Lock(request, "account 2");
        world.settles(request.runAsync(() -> transfer(world, one, two)).named("there"),
                request.runAsync(() -> transfer(world, inOrder ? one : two, inOrder ? two : one)).named("back"));
    }

    private static void transfer(World world, Lock first, Lock second) {
        first.take();
        world.point();
        second.take();
        second.free();
        first.free();
    }

    /** A function of a service with one worker waits for another function of it. */
    private static void pooled(World world, boolean behind) {
        Request request = world.service().request("report");
        Stage<Integer> click = request.<Integer>promise().named("go");
        Stage<Integer> part = click.thenApplyAsync(it -> it).named("part");
        world.calls("a click", () -> click.complete(1));
        world.settles(behind ? part.thenApplyAsync(it -> it + 1) : request.supplyAsync(() -> part.join() + 1).named("sum"));
    }

    /** A default is told after a while, and the late answer is written down all the same. */
    private static void defaulted(World world, boolean behind) {
        Map<String, Integer> written = new HashMap<>();
        Stage<Integer> rate = world.service().request("rate").adopt(world.arrives(7, "rate"));
        Stage<Integer> told;
        if (behind) {
            told = rate.completeOnTimeout(5, 1, SECONDS).thenApply(it -> written(written, it));
        } else {
            rate.thenAccept(it -> written(written, it)).named("write");
            told = rate.thenApply(it -> it).named("tell").completeOnTimeout(5, 1, SECONDS);
        }
        world.atEnd(() -> told.join().equals(written.get("rate")), "what is told is what is written");
        world.settles(told);
    }

    private static int written(Map<String, Integer> written, int rate) {
        written.put("rate", rate);
        return rate;
    }

    /** Of two replicas one fails. */
    private static void replicated(World world, boolean fallsBack) {
        Request request = world.service().request("replicas");
        Stage<Integer> one = request.adopt(world.arrives(1, "one"));
        Stage<Integer> two = request.adopt(world.fails(new Outage("two"), "two"));
        Stage<?> answer = fallsBack ? two.exceptionallyCompose(error -> one) : request.anyOf(one, two);
        Stage<Throwable> told = answer.handle((value, error) -> error);
        world.atEnd(() -> told.join() == null, "one good answer is enough");
        world.settles(told);
    }

    /** Two parts are to be written together or not at all. */
    private static void booked(World world, boolean together) {
        List<String> written = new ArrayList<>();
        Request request = world.service().request("both");
        Stage<String> flight = request.adopt(world.arrivesOrFails("LIS", new Outage("flight"), "flight"));
        Stage<String> hotel = request.adopt(world.arrivesOrFails("Tejo", new Outage("hotel"), "hotel"));
        if (together) {
            world.settles(flight.thenAcceptBoth(hotel, (a, b) -> written.addAll(Arrays.asList(a, b))).exceptionally(error -> null));
        } else {
            world.settles(flight.thenAccept(written::add).exceptionally(error -> null), hotel.thenAccept(written::add).exceptionally(error -> null));
        }
        world.atEnd(() -> written.size() != 1, "both are written or none");
    }

    /** What is made on the first use is made twice. */
    private static void made(World world, boolean keepsStage) {
        List<String> made = new ArrayList<>();
        Map<String, Object> kept = new HashMap<>();
        Request request = world.service().request("pool");
        World.Act use = () -> {
            if (keepsStage) {
                kept.computeIfAbsent("it", none -> request.supplyAsync(() -> made.add("connection")));
            } else if (!kept.containsKey("it")) {
                world.point();
                made.add("connection");
                kept.put("it", made);
            }
        };
        world.calls("one user", use);
        world.calls("another user", use);
        world.atEnd(() -> made.size() == 1, "one is made");
    }

    /** Two messages of one sender come, and the later one may come first. */
    private static void stored(World world, boolean byVersion) {
        int[] version = {0};
        Request request = world.service().request("profile");
        for (int number = 1; number <= 2; number++) {
            Stage<Integer> message = request.adopt(world.arrives(number, "message " + number));
            world.settles(message.thenAccept(it -> version[0] = byVersion ? Math.max(it, version[0]) : it).named("store " + number));
        }
        world.atEnd(() -> version[0] == 2, "the last message stands");
    }

    /** Two withdrawals look at the balance in one function, and take from it in the next. */
    private static void withdrawn(World world, boolean inOne) {
        int[] cents = {100};
        Request request = world.service().request("account");
        world.check(() -> cents[0] >= 0, "never overdrawn");
        for (int number = 1; number <= 2; number++) {
            world.settles(request.supplyAsync(() -> cents[0] >= 80).named("look " + number).thenAcceptAsync(enough -> {
                if (enough && (!inOne || cents[0] >= 80)) {
                    cents[0] -= 80;
                }
            }).named("take " + number));
        }
    }

    /** A listener that has unsubscribed is told. */
    private static void listened(World world, boolean looks) {
        boolean[] isOn = {true};
        Stage<String> news = world.service().request("news").adopt(world.arrives("news", "news"));
        world.settles(news.thenAccept(it -> {
            if (!isOn[0] && !looks) {
                throw new AssertionError("told after its end");
            }
        }).named("tell"));
        world.calls("the listener leaves", () -> isOn[0] = false);
    }

    /** Each of two adds to what it has read before it asked somebody. */
    private static void added(World world, boolean inOne) {
        int[] total = {0};
        Request request = world.service().request("total");
        for (int number = 1; number <= 2; number++) {
            int cents = number;
            Stage<Integer> answer = request.adopt(world.arrives(cents, "answer " + cents));
            Stage<Integer> before = request.supplyAsync(() -> total[0]).named("read " + cents);
            world.settles(before.thenCombine(answer, (read, it) -> total[0] = (inOne ? total[0] : read) + it).named("add " + cents));
        }
        world.atEnd(() -> total[0] == 3, "both are added");
    }

    /** What is taken is given back by the next function, which isn't called if the stage was cancelled. */
    private static void released(World world, boolean always) {
        List<String> held = new ArrayList<>();
        Stage<Boolean> use = world.service().request("use").supplyAsync(() -> held.add("it")).named("take");
        Stage<?> rest = use.thenApplyAsync(it -> it).named("work");
        Stage<?> given = always ? use.handle((value, error) -> held.remove("it")).named("give back") : rest.thenRun(() -> held.remove("it")).named("give back");
        world.calls("the client leaves", rest, it -> it.cancel(true));
        world.atEnd(held::isEmpty, "it is released");
        world.settles(given);
    }

    /** A payment that took too long is refunded, though it may still be made. */
    private static void refunded(World world, boolean waits) {
        List<String> moved = new ArrayList<>();
        Request request = world.service().request("refund");
        Stage<Boolean> charge = request.supplyAsync(() -> moved.add("charge")).named("charge");
        Stage<String> limited = charge.thenApply(it -> "paid").named("pay").orTimeout(1, SECONDS);
        Stage<String> told = waits ? limited.exceptionallyCompose(error -> charge.handle((value, fault) -> refund(moved)))
                : limited.exceptionally(error -> refund(moved)).named("refund");
        world.atEnd(() -> told.join().equals("paid") || Collections.frequency(moved, "refund") == Collections.frequency(moved, "charge"),
                "what isn't paid is refunded");
        world.settles(told);
    }

    private static String refund(List<String> moved) {
        if (moved.contains("charge")) {
            moved.add("refund");
        }
        return "refunded";
    }

    /** A message is delivered twice. */
    private static void delivered(World world, boolean marksFirst) {
        Set<Integer> seen = new HashSet<>();
        List<Integer> effects = new ArrayList<>();
        Request request = world.service().request("messages");
        Runnable handle = () -> {
            if (!seen.contains(17)) {
                if (marksFirst) {
                    seen.add(17);
                }
                world.point();
                effects.add(17);
                seen.add(17);
            }
        };
        world.check(() -> effects.size() <= 1, "handled once");
        world.settles(request.runAsync(handle).named("delivery"), request.runAsync(handle).named("delivery again"));
    }
}
