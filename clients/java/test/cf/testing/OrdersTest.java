package cf.testing;

import static cf.service.Checks.has;
import static cf.service.Checks.is;
import static java.util.concurrent.TimeUnit.MILLISECONDS;
import static java.util.concurrent.TimeUnit.SECONDS;

import cf.service.Flow;
import cf.service.Request;
import cf.service.Stage;
import java.util.ArrayList;
import java.util.Arrays;
import java.util.Collections;
import java.util.HashSet;
import java.util.List;
import java.util.Set;
import java.util.concurrent.CompletableFuture;
import java.util.concurrent.CompletionException;
import java.util.concurrent.TimeoutException;
import java.util.concurrent.atomic.AtomicInteger;
import java.util.function.BiConsumer;
import java.util.function.BiFunction;
import java.util.function.Function;
import java.util.stream.Collectors;

/** What does the kit find, what does it tell, and what does it leave out? */
public final class OrdersTest {
    /** By which each planted fault has to be found: so many are tried in a hundredth of a second. */
    private static final int MOST_ORDERS = 10;

    private OrdersTest() {}

    private static String thrown(Runnable run) {
        try {
            run.run();
        } catch (AssertionError error) {
            return error.getMessage();
        }
        throw new AssertionError("nothing is thrown");
    }

    private static String why(Scenario scenario) {
        return Orders.of(scenario).run().failed().get(0).why();
    }

    private static void isSound(Scenario scenario) {
        Planted.isSound("it", Orders.of(scenario).run());
    }

    private static List<Integer> counts(Scenario scenario) {
        return Arrays.asList(Orders.of(scenario).run().orders(), Orders.of(scenario).unreduced().run().orders());
    }

    // Services.

    public static void plantedFaults() {
        Services.ALL.areFound(20, MOST_ORDERS);
    }

    public static void soundServices() {
        Services.ALL.areSound(100_000);
    }

    // What a failure tells.

    private static void charged(World world) {
        Services.charged(world, false);
    }

    public static void stories() {
        Failure failure = Orders.of(OrdersTest::charged).run().failed().get(0);
        is(failure.told().stream().map(Failure.ToldMove::text).collect(Collectors.toList()),
                Arrays.asList("price comes: 4900", "charge is called", "the limit of charge passes", "charge again is called"));
        is(failure.told().get(2).settled(), Collections.singletonList("charge ends: TimeoutException"));
        is(failure.pairs().toString(), "[1, 2]");
        is(failure.row(), "come.0.0 call.0.1 limit.0.1.1 call.0.2");
        String text = failure.toString();
        has(text, "charged at most once: not so in this order of 4 moves");
        has(text, "    3. the limit of charge passes; charge ends: TimeoutException");
        has(text, "It is so if 3 (the limit of charge passes) comes before 2 (charge is called).");
        has(text, "This order alone: .row(\"come.0.0 call.0.1 limit.0.1.1 call.0.2\")");
        has(failure.histories().get(0).toString(), " 2000.000 ms  clock times out 1 charge");
        is(failure.account(), failure.histories().get(0).account());
        is(failure.script(), failure.histories().get(0).script());
    }

    public static void smaller() {
        Scenario longer = world -> {
            world.caller("somebody else").calls(() -> {}).calls(() -> {}).calls(() -> {});
            charged(world);
        };
        Failure found = Orders.of(longer).asFound().chance(200, 3).run().failed().get(0);
        Failure smaller = Orders.of(longer).chance(200, 3).run().failed().get(0);
        is(smaller.moves.size() <= found.moves.size(), true);
        is(smaller.moves.size(), 4);
        Report several = Orders.of(OrdersTest::charged).failures(1_000_000).run();
        is(several.whole(), true);
        is(several.failed().isEmpty(), false);
    }

    public static void assertions() {
        Orders.check(world -> Services.charged(world, true));
        Orders.of(world -> Services.charged(world, true)).whole().check();
        has(thrown(() -> Orders.check(OrdersTest::charged)), "charged at most once: not so in this order of 4 moves");
        try {
            Orders.check(world -> world.service().supplyAsync(() -> {
                throw new AssertionError("x");
            }));
        } catch (AssertionError error) {
            is(error.getCause().getMessage(), "x");
        }
        has(thrown(() -> Services.ALL.sound("overdrawn").orders().most(2).whole().check()), "which aren't all");
    }

    // Bounds.

    public static void bounds() {
        Report most = Services.ALL.sound("overdrawn").orders().most(5).run();
        is(most.orders() + most.cut() <= 5, true);
        is(most.whole(), false);
        is(Services.ALL.faulty("overdrawn").orders().chance(50, 1).failures(2).asFound().run().failed().size(), 2);
        Report seconds = Services.ALL.sound("overdrawn").orders().seconds(0).run();
        is(seconds.orders(), 0);
        is(seconds.whole(), false);
    }

    public static void byChance() {
        List<List<String>> rows = new ArrayList<>();
        for (int seed : new int[] {1, 1, 2}) {
            rows.add(Services.ALL.faulty("overdrawn").orders().chance(50, seed).failures(50).asFound().run().failed().stream().map(Failure::row)
                    .collect(Collectors.toList()));
        }
        is(rows.get(0), rows.get(1));
        is(rows.get(0).equals(rows.get(2)), false);
        Report report = Orders.of(world -> {
            List<Integer> came = new ArrayList<>();
            for (int number = 0; number < 7; number++) {
                world.<Integer>arrives(number, "arrival " + number).thenAccept(came::add);
            }
            world.atEnd(() -> came.get(6) != 0, "the first doesn't come last");
        }).most(3_000).run();
        is(report.failed().isEmpty(), false);
        is(report.byChance() > 0, true);
    }

    // Functions that wait.

    public static void waits() {
        isSound(world -> {
            Request request = world.service().request();
            Stage<Integer> price = request.adopt(world.arrives(3, "price"));
            Stage<Integer> twice = request.supplyAsync(() -> price.join() * 2);
            world.atEnd(() -> twice.join() == 6, "it is six");
            world.settles(twice);
        });
        isSound(world -> is(world.service().supplyAsync(() -> 3).get(), 3));
        Set<Object> seen = new HashSet<>();
        isSound(world -> {
            try {
                seen.add(world.service().request().adopt(world.arrives(3, "price")).get(2, SECONDS));
            } catch (TimeoutException late) {
                seen.add("late");
            }
        });
        is(seen, new HashSet<>(Arrays.asList(3, "late")));
        is(why(world -> {
            Request request = world.service().request();
            Stage<Integer> promise = request.<Integer>promise().named("a promise");
            world.settles(request.supplyAsync(promise::join).named("a function"));
        }), "deadlock: a function waits for a promise");
        isSound(world -> {
            Stage<Integer> price = world.arrives(3, "price");
            world.settles(world.arrives(4, "news").thenApply(it -> it + price.join()));
        });
    }

    public static void choices() {
        Set<Object> seen = new HashSet<>();
        isSound(world -> {
            Stage<String> asked = world.service().request().supplyAsync(() -> {
                if (world.choice(true, false)) {
                    throw new IllegalStateException("away");
                }
                return world.choice("yes", "no");
            });
            world.atEnd(() -> seen.add(asked.isCompletedExceptionally() ? "away" : asked.join()) || true, "seen");
            world.settles(asked);
        });
        is(seen, new HashSet<>(Arrays.asList("away", "yes", "no")));
    }

    /** What isn't the world's is told, and doesn't hang the search. */
    public static void blocked() {
        Object lock = new Object();
        has(why(world -> {
            Stage<Integer> price = world.arrives(3, "price");
            world.service().request().supplyAsync(() -> {
                synchronized (lock) {
                    return price.join();
                }
            }).named("one");
            world.service().request().supplyAsync(() -> {
                synchronized (lock) {
                    return price.join();
                }
            }).named("two");
        }), " blocks outside the world, at cf.testing.OrdersTest.");
        long[] blocks = new long[1];
        has(why(world -> {
            Stage<Integer> price = world.arrives(3, "price");
            world.service().request().runAsync(() -> {
                for (long began = System.nanoTime(); System.nanoTime() - began < 300_000_000;) {
                    Thread.onSpinWait(); // (it is at work for a while)
                }
                blocks[0] = System.nanoTime();
                CompletableFuture.allOf(price).join();
            }).named("a function");
        }), "a function blocks outside the world, at cf.testing.OrdersTest.");
        is(System.nanoTime() - blocks[0] >= 1_750_000_000, true); // (eight looks)
    }

    // Faults of tests.

    public static void faults() {
        World.Act raises = () -> {
            throw new IllegalStateException("x");
        };
        is(why(world -> raises.run()), "the test threw IllegalStateException: x");
        is(why(world -> world.calls("a caller", raises)), "a caller threw IllegalStateException: x");
        is(why(world -> world.check(() -> {
            throw new IllegalStateException("x");
        }, "checked")), "checked: it threw IllegalStateException: x");
        is(why(world -> world.check(() -> {
            throw new AssertionError("x");
        }, "checked")), "checked: x");
        is(why(world -> world.service().supplyAsync(() -> {
            throw new AssertionError("x");
        }).named("a function")), "a function threw AssertionError: x");
        is(why(world -> world.settles(world.service().request().promise().named("a promise"))), "a promise is never settled");
        has(why(world -> {
            Stage<Integer> promise = world.service().request().promise();
            Thread thread = new Thread(() -> promise.complete(1), "mine");
            thread.start();
            thread.join();
        }), "the thread mine changed a request");
    }

    public static void notDeterministic() {
        AtomicInteger runs = new AtomicInteger();
        has(thrown(() -> Orders.of(world -> {
            Request request = world.service().request();
            for (int k = runs.getAndIncrement() % 2; k >= 0; k--) {
                request.supplyAsync(() -> 1);
            }
        }).run()), "begin.0.0");
        runs.set(0);
        has(thrown(() -> Orders.of(world -> {
            Request request = world.service().request();
            for (int k = runs.getAndIncrement() == 2 ? 3 : 2; k > 0; k--) {
                request.supplyAsync(() -> 1);
            }
        }).run()), "begin.0.0 begin.0.1\nbefore, and now\n    begin.0.0 begin.0.1 begin.0.2");
        runs.set(0);
        has(thrown(() -> Orders.of(world -> {
            is(runs.getAndIncrement() < 2, true);
            world.service().supplyAsync(() -> 1);
            world.service().supplyAsync(() -> 1);
        }).run()), "it fails now, and didn't before: the test threw AssertionError: false and not true");
        runs.set(0);
        thrown(() -> Orders.of(world -> world.service().supplyAsync(runs::getAndIncrement)
                .thenAccept(number -> {
                    if (number > 0) {
                        world.service().supplyAsync(() -> 1);
                    }
                })).run());
    }

    // What is left out.

    /** An order that fails ends there. What would have come behind it is tried all the same: no end is lost, and no failure. */
    public static void failing() {
        List<BiConsumer<World, boolean[]>> faults = Arrays.asList(
                (world, done) -> world.check(() -> !done[0] || done[1], "two before one"),
                (world, done) -> world.calls("three", () -> is(done[0], false)),
                (world, done) -> world.service().request().runAsync(() -> is(done[0] && !done[1], false)),
                (world, done) -> {
                    Request request = world.service().request();
                    Stage<Integer> promise = request.promise();
                    request.supplyAsync(promise::join);
                    world.calls("three", () -> {
                        if (done[0]) {
                            promise.complete(1);
                        }
                    });
                });
        for (BiConsumer<World, boolean[]> fault : faults) {
            Scenario scenario = world -> {
                boolean[] done = new boolean[2];
                world.calls("one", () -> done[0] = true);
                world.calls("two", () -> done[1] = true);
                fault.accept(world, done);
            };
            Report all = everyFailure(Orders.of(scenario).unreduced()), report = everyFailure(Orders.of(scenario));
            is(report.whole(), true);
            is(report.ends().keySet(), all.ends().keySet());
            is(whys(report), whys(all));
            is(all.ends().size() + " " + whys(all).size(), "1 1");
        }
        Report many = everyFailure(Services.ALL.faulty("overdrawn").orders().unreduced());
        is(many.whole(), true);
        is(many.orders() > 100 && many.failed().size() > 1, true);
    }

    private static Report everyFailure(Orders orders) {
        return orders.seconds(600).failures(Integer.MAX_VALUE).asFound().ends(World::outcomes).run();
    }

    private static Set<String> whys(Report report) {
        return report.failed().stream().map(Failure::why).collect(Collectors.toSet());
    }

    public static void leftOut() {
        is(counts(two((world, stage) -> stage)), Arrays.asList(2, 20));
        is(counts(two(World::pure)), Arrays.asList(1, 20));
        is(counts(two((world, stage) -> world.touches(stage, "name " + stage.number()))), Arrays.asList(1, 20));
        is(counts(two((world, stage) -> world.touches(stage, "name"))), Arrays.asList(2, 20));
        is(counts(world -> {
            Request request = world.service().request();
            Stage<Integer> one = request.promise(), two = request.promise();
            world.calls("one", one, it -> it.cancel(true));
            world.calls("two", two, it -> it.cancel(true));
            world.touches(request.supplyAsync(one::isDone), "own");
        }).get(0), 2);
        is(counts(world -> {
            for (int seconds = 1; seconds <= 3; seconds++) {
                world.service().request().<Integer>promise().completeOnTimeout(1, seconds, SECONDS);
            }
        }), Arrays.asList(1, 6));
    }

    private static Scenario two(BiFunction<World, Stage<Integer>, Stage<Integer>> marks) {
        return world -> {
            Request request = world.service().request();
            for (int k = 0; k < 2; k++) {
                world.settles(marks.apply(world, request.supplyAsync(() -> 1)));
            }
        };
    }

    /** What arrives behind a change touches nothing of it, and would have come to something else before it. */
    public static void letGo() {
        Set<Integer> seen = new HashSet<>();
        isSound(world -> {
            Request request = world.service().request();
            Stage<Integer> price = request.adopt(world.arrives(3, "price"));
            world.atEnd(() -> seen.add(price.join()) || true, "seen");
            world.settles(request.supplyAsync(() -> price.complete(1)));
        });
        is(seen, new HashSet<>(Arrays.asList(1, 3)));
    }

    /** Functions and checks that read. */
    public static void read() {
        is(counts(world -> {
            Request request = world.service().request();
            world.calls("somebody", request.promise(), it -> it.cancel(true));
            world.touches(request.supplyAsync(() -> request.history().events()), "own");
        }).get(0), 2);
        is(counts(world -> {
            Request request = world.service().request();
            Stage<Integer> one = request.promise();
            for (int number = 1; number <= 2; number++) {
                int value = number;
                world.touches(request.supplyAsync(() -> one.complete(value) | one.isDone()), "name " + value);
            }
        }).get(0), 2);
        is(Orders.of(world -> {
            Request request = world.service().request();
            Stage<?> one = request.promise(), two = request.promise();
            world.calls("one", one, it -> it.cancel(true));
            world.calls("two", two, it -> it.cancel(true));
            world.check(() -> !two.isDone() || one.isDone(), "one before two");
        }).run().failed().isEmpty(), false);
    }

    /** Who calls functions behind a stage that he has settled, and who has seen that a stage is open, isn't alone: threads come between. */
    public static void between() {
        List<BiConsumer<World, Stage<Integer>>> settling = Arrays.asList(
                (world, paid) -> paid.request().runAsync(() -> paid.complete(1)).named("pay"),
                (world, paid) -> world.calls("a caller", () -> paid.complete(1)),
                (world, paid) -> paid.request().supplyAsync(() -> paid.completeExceptionally(new IllegalStateException())),
                (world, paid) -> paid.complete(1));
        for (BiConsumer<World, Stage<Integer>> settles : settling) {
            Set<String> seen = new HashSet<>();
            Orders.of(world -> {
                List<String> log = new ArrayList<>();
                Stage<Integer> paid = world.service().request().promise();
                Stage<Boolean> told = paid.handle((cents, error) -> log.add("told"));
                world.settles(paid.handleAsync((cents, error) -> seen.add(log + " " + told.isDone()) | true));
                settles.accept(world, paid);
            }).seconds(600).whole().check();
            is(seen, new HashSet<>(Arrays.asList("[] false", "[told] false", "[told] true")));
        }
        List<Function<Stage<Integer>, Boolean>> looks = Arrays.asList(it -> !it.isDone(), it -> !it.isCompletedExceptionally(), it -> !it.isCancelled(),
                it -> it.getNow(0) == 0, it -> {
                    try {
                        return it.get(0, SECONDS) == 0;
                    } catch (TimeoutException open) {
                        return true;
                    } catch (Exception failed) {
                        return false;
                    }
                });
        for (Function<Stage<Integer>, Boolean> isOpen : looks) {
            Scenario asked = world -> {
                List<Integer> charges = new ArrayList<>();
                Stage<?>[] made = new Stage<?>[1];
                Stage<Integer> price = world.arrives(4900, "price"), paid = price.thenApplyAsync(cents -> {
                    @SuppressWarnings("unchecked")
                    Stage<Integer> own = (Stage<Integer>) made[0];
                    if (isOpen.apply(own)) {
                        charges.add(cents);
                    }
                    return cents;
                });
                made[0] = paid.orTimeout(2, SECONDS);
                world.check(() -> charges.size() <= 1, "charged at most once");
                world.settles(paid.exceptionally(error -> {
                    if (charges.isEmpty()) {
                        charges.add(4900);
                    }
                    return 4900;
                }));
            };
            is(why(asked), "charged at most once");
        }
        // Who cancels all looks at all, also at what is settled, or isn't attached yet.
        Set<String> seen = new HashSet<>();
        Orders.of(world -> {
            Request request = world.service().request();
            Stage<Integer> one = request.promise();
            List<Stage<?>> attached = new ArrayList<>();
            world.calls("completes", one, it -> it.complete(1));
            world.calls("attaches", one, it -> attached.add(it.thenApply(x -> x)));
            world.calls("cancels", request::cancelAll);
            world.atEnd(() -> seen.add(one.isCancelled() + " " + attached.get(0).isCancelled()) || true, "seen");
        }).seconds(600).whole().check();
        is(seen, new HashSet<>(Arrays.asList("false false", "false true", "true false", "true true")));
    }

    public static void limits() {
        isSound(world -> {
            Request request = world.service().request();
            List<Integer> came = new ArrayList<>();
            List<Stage<Integer>> stages = new ArrayList<>();
            for (int seconds : new int[] {3, 1, 2}) {
                stages.add(request.<Integer>promise().completeOnTimeout(seconds, seconds, SECONDS));
                world.settles(stages.get(stages.size() - 1).thenAccept(came::add));
            }
            world.check(() -> stages.get(1).isDone() || !stages.get(0).isDone() && !stages.get(2).isDone(), "in due order");
            world.atEnd(() -> came.size() == 3, "all come");
        });
        Set<Object> seen = new HashSet<>();
        for (boolean hasLimit : new boolean[] {true, false}) {
            seen.clear();
            isSound(world -> {
                Stage<Integer> news = world.service().request().adopt(world.may(1, "news"));
                if (hasLimit) {
                    news.completeOnTimeout(0, 1, SECONDS);
                }
                world.atEnd(() -> seen.add(news.isDone() ? news.join() : "open") || true, "seen");
            });
            is(seen, new HashSet<>(Arrays.asList(hasLimit ? 0 : "open", 1)));
        }
        isSound(world -> {
            Request request = world.service().request();
            List<String> ran = new ArrayList<>();
            CompletableFuture.runAsync(() -> ran.add("late"), request.delayedExecutor(100, MILLISECONDS));
            request.<String>promise().completeAsync(() -> "soon").thenAccept(ran::add);
            world.atEnd(() -> ran.size() == 2, "both ran");
        });
    }

    /** Between the claim and the call, between the call and the end. */
    public static void cancelled() {
        for (boolean isAsync : new boolean[] {true, false}) {
            Set<String> seen = new HashSet<>();
            isSound(world -> {
                List<String> ran = new ArrayList<>();
                Stage<String> price = world.arrives("price", "price");
                Stage<?>[] made = new Stage<?>[1];
                Function<String, Boolean> function = it -> {
                    is(isAsync || !made[0].isDone(), true);
                    return ran.add(it);
                };
                Stage<?> stage = made[0] = isAsync ? price.thenApplyAsync(function) : price.thenApply(function);
                world.calls("somebody", stage, it -> it.cancel(true));
                world.atEnd(() -> seen.add(ran.size() + " " + stage.isCancelled()) || true, "seen");
            });
            is(seen, new HashSet<>(Arrays.asList("0 true", "1 true", "1 false")));
        }
    }

    public static void points() {
        Scenario scenario = world -> {
            Request request = world.service().request();
            List<Integer> seen = new ArrayList<>();
            request.supplyAsync(() -> seen.add(1));
            request.promise();
            if (!seen.isEmpty()) {
                throw new AssertionError("the function was called before the test went on");
            }
        };
        is(Orders.of(scenario).run().failed().isEmpty(), true);
        is(Orders.of(scenario).fine().run().failed().isEmpty(), false);
        Report fine = Orders.of(world -> {
            Request request = world.service().request();
            Stage<Integer> first = request.promise(), second = request.promise();
            first.thenAccept(second::complete);
            world.calls("somebody", () -> first.complete(0));
            world.settles(second.thenApply(it -> it + 1));
        }).fine().run();
        is(fine.failed().toString(), "[]");
        is(fine.whole(), true);
    }

    public static void flows() {
        Flow flow = new Flow("order");
        Flow.Step<Integer> paid = flow.<Integer>promise().named("cents").thenApply(cents -> cents + 1).async().named("paid");
        isSound(world -> {
            Request request = world.service().start(flow, 4899);
            world.atEnd(() -> request.stage(paid).join() == 4900, "it is paid");
            world.settles(request.stage(paid));
        });
        isSound(world -> {
            Stage<Integer> stage = world.service().request().supplyAsync(() -> 1);
            CompletableFuture<Void> all = CompletableFuture.allOf(stage, world.arrives(2, "two"));
            world.settles(all.thenApply(none -> stage.join()));
        });
        is(why(world -> {
            Stage<Integer> stage = world.service().request().<Integer>failedFuture(new IllegalStateException("x"));
            try {
                stage.join();
            } catch (CompletionException failed) {
                throw new AssertionError(failed.getCause().getMessage());
            }
        }), "the test threw AssertionError: x");
    }

    /** The same moves that touch something else are told, too. */
    public static void touchesElse() {
        AtomicInteger runs = new AtomicInteger();
        has(thrown(() -> Orders.of(world -> {
            Request request = world.service().request();
            Stage<Integer> one = request.promise(), two = request.promise(), three = request.promise();
            world.calls("somebody", () -> (runs.getAndIncrement() == 2 ? two : one).complete(1)); // (the first order is run twice)
            world.calls("one", three, it -> it.complete(1));
            world.calls("two", three, it -> it.complete(2));
        }).run()), "\nit touched ");
    }

    /** A function that takes either source, and reads both, is called by each of them, before and behind the other. */
    public static void ready() {
        Set<String> seen = new HashSet<>();
        isSound(world -> {
            Request request = world.service().request();
            Stage<Integer> one = request.adopt(world.arrives(1, "one")), two = request.adopt(world.arrives(2, "two"));
            world.settles(one.applyToEither(two, x -> seen.add(x + " " + one.isDone() + " " + two.isDone())));
        });
        is(seen, new HashSet<>(Arrays.asList("1 true false", "1 true true", "2 false true", "2 true true")));
    }

    /** In a fine search others move once a function is attached that waits for nobody. */
    public static void behindStarted() {
        Scenario scenario = world -> {
            List<Integer> seen = new ArrayList<>();
            world.calls("somebody", () -> seen.add(1));
            world.service().supplyAsync(() -> 1);
            is(seen.isEmpty(), true);
        };
        is(Orders.of(scenario).run().failed().isEmpty(), true);
        is(Orders.of(scenario).fine().run().failed().isEmpty(), false);
    }

    /** Who moves again does so at once in a failing order that is made smaller, from its first move on. */
    public static void fewerSwitches() {
        Scenario scenario = world -> {
            List<String> done = new ArrayList<>();
            world.calls("late", () -> done.add("late"));
            world.calls("two", () -> done.add("two"));
            world.caller("one").calls(() -> done.add("one")).calls(() -> done.add("one"));
            world.check(() -> done.size() < 3 || done.contains("late") || done.get(0).equals("two"), "two is the first, or the last is late");
        };
        is(Orders.of(scenario).asFound().run().failed().get(0).row(), "by.2.0 by.1.0 by.2.1");
        is(Orders.of(scenario).run().failed().get(0).row(), "by.2.0 by.2.1 by.1.0");
    }

    /** Each of several functions that a thread calls in a row is told by its own name. */
    public static void inRow() {
        Failure failure = Orders.of(world -> {
            Stage<Integer> price = world.service().request().adopt(world.arrives(3, "price"));
            world.settles(price.thenApply(x -> x).named("one"), price.thenApply(x -> x).named("two"));
            world.atEnd(() -> false, "it fails");
        }).run().failed().get(0);
        is(failure.told().stream().map(Failure.ToldMove::text).collect(Collectors.toList()),
                Arrays.asList("price comes: 3", "one is called", "one returns", "two is called",
                "two returns"));
    }
}
