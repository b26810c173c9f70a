package cf.testing;

import cf.store.Functions;
import cf.store.StoreException;
import cf.store.StoredRequest;
import cf.store.StoredStage;
import cf.testing.Answer.Bound;
import java.util.ArrayList;
import java.util.Arrays;
import java.util.List;
import java.util.Random;
import java.util.concurrent.CancellationException;
import java.util.concurrent.ExecutionException;
import java.util.concurrent.TimeUnit;
import java.util.concurrent.TimeoutException;
import java.util.function.Supplier;

/**
 * Random programs over a store, which the kit has to bring to the same ends with and without what it leaves out. In each of their orders no claim
 * may be granted twice, and each put stands as its process was told.
 */
public final class StoredPrograms {
    private static final int SHARED = 2;

    private final Random random;
    private final int workers;
    private final List<Act> acts = new ArrayList<>();
    private final List<Object[]> stages = new ArrayList<>();
    private final List<Object[]> calls = new ArrayList<>();
    /** What may go wrong once, or null; the variable that is checked, or -1. */
    private final Bound fault;
    private final int check;
    private final boolean hasLimit;

    /** What a function does. */
    private static final class Act {
        final String kind, mark;
        final int variable;

        Act(String kind, int variable, String mark) {
            this.kind = kind;
            this.variable = variable;
            this.mark = mark;
        }
    }

    private StoredPrograms(long seed) {
        random = new Random(seed);
        workers = one(1, 1, 1, 2);
        for (int k = 0; k < 2; k++) {
            acts.add(new Act(one("set", "add", "copy", "throw", "none"), random.nextInt(SHARED), one("", "", "pure", "touches")));
        }
        for (int k = one(1, 1, 2), n = 0; n < k; n++) {
            String kind = n == 0 ? one("supply", "supply", "write", "promise")
                    : one("supply", "promise", "then", "handle", "again", "combine", "recover", "compose", "write", "write then");
            stages.add(new Object[] {kind, random.nextInt(2), random.nextInt(Math.max(n, 1))});
        }
        for (int k = one(0, 1, 1); k > 0; k--) {
            calls.add(new Object[] {one("cancel", "abandon", "complete", "attach", "wait", "done", "open"), random.nextInt(stages.size()), random.nextInt(SHARED)});
        }
        fault = random.nextInt(5) < 4 ? one(Bound.values()) : null;
        check = random.nextInt(10) < 3 ? random.nextInt(SHARED) : -1;
        hasLimit = random.nextInt(100) < 15;
    }

    @SafeVarargs
    private final <T> T one(T... of) {
        return of[random.nextInt(of.length)];
    }

    private Supplier<String> begin(World world) {
        return new Now(world)::end;
    }

    /** One run of it. */
    private final class Now {
        private final int[] shared = new int[SHARED];
        /** What clients were told; what functions have done that touch nothing else. */
        private final List<Object> log = new ArrayList<>(), marked = new ArrayList<>();
        private final List<StoredStage> made = new ArrayList<>();
        private final WorldStore store;
        private final StoreProcess shop;

        Now(World world) {
            Functions functions = new Functions();
            store = world.store();
            for (int k = 0; k < acts.size(); k++) {
                Act act = acts.get(k);
                String name = "f" + k;
                String composes = name + " of a request", writes = name + StoredChecks.WRITES;
                functions.with(name, 1, () -> called(act, 0)).with(name + " of one", 1, a -> called(act, 1)).with(name + " of two", 1, (a, b) -> called(act, 2));
                functions.composing(composes, 1, (request, a) -> {
                    called(act, 1);
                    return request.supply(name);
                });
                functions.transactional(writes, 1, (connection, args) -> {
                    StoredChecks.write(connection, writes);
                    return called(act, args.size());
                });
                for (String each : Arrays.asList(name, name + " of one", name + " of two", composes, writes)) {
                    if (act.mark.equals("pure")) {
                        store.pure(each);
                    } else if (act.mark.equals("touches")) {
                        store.touches(each, "marked");
                    }
                }
            }
            if (fault != null) {
                StoredChecks.with(store, fault);
            }
            for (int number = 0; number < workers; number++) {
                store.worker("worker " + number, functions);
            }
            shop = store.process("shop", functions).workers(0);
            StoredRequest request = shop.request("order");
            stages.forEach(stage -> made.add(made(request, (String) stage[0], "f" + stage[1], (int) stage[2])));
            if (hasLimit) {
                made.get(0).orTimeout(2, TimeUnit.SECONDS);
            }
            calls.forEach(call -> shop.calls("a client", () -> call((String) call[0], made.get((int) call[1]), (int) call[2])));
            if (check >= 0) {
                world.check(() -> shared[check] < 2 || !made.get(0).isDone(), "checked");
            }
            world.atEnd(() -> StoredChecks.grantedOnce(store) && StoredChecks.standsOnce(store), "no claim twice, no word twice, each as it was told");
            world.atEnd(() -> StoredChecks.effectsStand(store), "effects stand where their finishes do");
        }

        private Object called(Act act, int given) {
            if (act.mark.equals("pure")) {
                return given;
            }
            if (act.mark.equals("touches")) {
                return marked.add(given);
            }
            int[] its = shared;
            switch (act.kind) {
                case "set": its[act.variable] = 1; break;
                case "add": its[act.variable]++; break;
                case "copy": its[act.variable] = its[1 - act.variable] + 1; break;
                case "throw":
                    if (its[act.variable] % 2 == 0) {
                        its[act.variable]++;
                        throw new IllegalStateException("of " + act.variable);
                    }
                    break;
                default:
            }
            return its[act.variable];
        }

        private StoredStage made(StoredRequest request, String kind, String function, int of) {
            switch (kind) {
                case "promise": return request.promise("promise");
                case "supply": return request.supply(function);
                case "write": return request.supply(function + StoredChecks.WRITES);
                case "write then": return made.get(of).then(function + StoredChecks.WRITES);
                case "compose": return made.get(of).compose(function + " of a request");
                case "then": return made.get(of).then(function + " of one");
                case "handle": return made.get(of).handle(function + " of two");
                case "again": return made.get(of).again(1);
                case "recover": return made.get(of).recover(function + " of one");
                default: return made.get(of).combine(made.get(of), function + " of two");
            }
        }

        /** What a client does, and what it was told. */
        private void call(String word, StoredStage stage, int variable) throws InterruptedException {
            try {
                switch (word) {
                    case "cancel": log.add(stage.cancel()); break;
                    case "abandon": log.add(stage.abandon()); break;
                    case "complete": log.add(stage.complete(7)); break;
                    case "attach": made.add(stage.handle("f0 of two")); break;
                    case "open": shop.request("another order").supply("f0"); break;
                    case "done": shared[variable] = stage.isDone() ? 1 : 0; break;
                    default:
                        stage.get(5, TimeUnit.SECONDS);
                        log.add("there");
                }
            } catch (StoreException | TimeoutException | ExecutionException | CancellationException fault) {
                log.add(fault.getClass().getSimpleName());
            }
        }

        String end() {
            return store.outcomes() + Arrays.toString(shared) + log + marked + store.effects();
        }
    }

    /** FIRST COUNT MOST, as of {@link Compared#main}. */
    public static void main(String[] args) {
        Compared.main("programs over a store", true, args, seed -> new StoredPrograms(seed)::begin);
    }
}
