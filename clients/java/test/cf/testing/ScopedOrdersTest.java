package cf.testing;

import static cf.service.Checks.has;
import static cf.service.Checks.is;

import cf.service.Request;
import cf.service.Retry;
import cf.service.Scope;
import cf.service.ScopeEndedException;
import cf.service.Stage;
import java.time.Duration;
import java.util.Arrays;
import java.util.List;
import java.util.concurrent.CompletionException;
import java.util.concurrent.atomic.AtomicInteger;

/** Scopes in every order. */
public final class ScopedOrdersTest {
    private ScopedOrdersTest() {}

    private static void isSound(Scenario scenario) {
        Planted.isSound("it", Orders.of(scenario).run());
    }

    /** A quote of the first of two backends within a scope with a limit; whether nothing is open or called behind its end. */
    private static void quote(World world, boolean inScope) {
        Request request = world.service().request("quote");
        Scope scope = request.scope(Duration.ofSeconds(2));
        world.atEnd(scope::hasEnded, "it ends");
        try {
            quote(world, request, scope, inScope);
        } catch (ScopeEndedException early) {
            world.atEnd(() -> early.getMessage().contains("\"scope\" of \"quote\""), "it says what has ended");
        }
    }

    private static void quote(World world, Request request, Scope scope, boolean inScope) {
        AtomicInteger late = new AtomicInteger();
        Stage<Integer> here = scope.adopt(world.arrivesOrFails(49, new IllegalStateException("away"), "here"));
        Stage<Integer> there = (inScope ? scope : request).adopt(world.arrives(52, "there"));
        Stage<Integer> best = scope.endsWith(scope.first(here, there).named("best"));
        List<Stage<Integer>> own = Arrays.asList(here, there, best, there.<Integer>thenApply(cents -> {
            late.addAndGet(scope.hasEnded() && Stage.isStopping() ? 1 : 0);
            return cents;
        }).named("noted"));
        world.check(() -> !scope.hasEnded() || own.stream().allMatch(Stage::isDone), "nothing is open behind the end");
        world.check(() -> !there.isCompletedExceptionally() || there.isCancelled(), "what is open then is cancelled");
        world.check(() -> late.get() == 0, "nothing is called behind the end");
        world.settles(request.allOf(best));
    }

    /** It holds in each order, also where functions and readers go on step by step; and not where a stage is left out of the scope. */
    public static void first() {
        isSound(world -> quote(world, true));
        is(Orders.of(world -> quote(world, true)).fine().chance(300, 7).run().failed().toString(), "[]");
        has(Orders.of(world -> quote(world, false)).run().failed().get(0).why(), "nothing is open behind the end");
        Orders all = Orders.of(world -> quote(world, true)).ends(World::outcomes);
        Report reduced = all.run(), whole = all.unreduced().run();
        is(whole.whole() + " " + reduced.ends().keySet().equals(whole.ends().keySet()) + (reduced.orders() < whole.orders()), "true truetrue");
    }

    /** Who waits for a scope is told of each failure that nobody takes, in each order, and of a limit. */
    public static void joins() {
        isSound(world -> {
            Request request = world.service().request();
            Stage<String> told = request.supplyAsync(() -> {
                try (Scope scope = request.scope(Duration.ofSeconds(2))) {
                    Stage<Integer> one = scope.adopt(world.<Integer>arrivesOrFails(1, new IllegalStateException("away"), "one"));
                    scope.adopt(world.arrives(2, "two")).thenCombine(one, Integer::sum).exceptionally(error -> 0);
                    Stage<Integer> alone = scope.adopt(world.<Integer>arrivesOrFails(3, new IllegalStateException("gone"), "alone"));
                    try {
                        scope.join();
                        return alone.isCompletedExceptionally() ? "lost" : "all";
                    } catch (CompletionException failed) {
                        boolean isAlone = "gone".equals(failed.getCause().getMessage());
                        return failed.getCause() instanceof IllegalStateException ? isAlone ? "gone" : "wrong" : "late";
                    } catch (InterruptedException never) {
                        return "interrupted";
                    }
                }
            });
            world.settles(told);
            world.atEnd(() -> Arrays.asList("all", "gone", "late").contains(told.join()), "told as it is");
        });
    }

    /** Tries in each order with a cancellation and a limit: none is begun once the answer is there. */
    public static void retries() {
        isSound(world -> {
            Request request = world.service().request("retried", Duration.ofSeconds(3));
            AtomicInteger asked = new AtomicInteger(), late = new AtomicInteger();
            Stage<?>[] answer = new Stage<?>[1];
            answer[0] = request.retry(Retry.of(3).delay(Duration.ofSeconds(2)).jitter(true), () -> {
                late.addAndGet(answer[0] != null && answer[0].isDone() ? 1 : 0);
                if (asked.incrementAndGet() < 3) {
                    throw new IllegalStateException("away");
                }
                return 7;
            });
            world.calls("a client who hangs up", () -> answer[0].cancel(false));
            world.settles(answer[0]);
            world.check(() -> late.get() == 0, "nothing is asked once it is over");
            world.atEnd(() -> answer[0].isCancelled() && asked.get() <= 2, "the limit comes before the third try");
        });
    }

    /** Who attaches beside an end has all of it or nothing. */
    public static void attaches() {
        isSound(world -> {
            Request request = world.service().request();
            Scope scope = request.scope();
            AtomicInteger refused = new AtomicInteger();
            Stage<?>[] made = new Stage<?>[1];
            world.calls("one who attaches", () -> {
                try {
                    made[0] = scope.supplyAsync(() -> 1).thenCompose(value -> request.promise());
                } catch (ScopeEndedException ended) {
                    refused.incrementAndGet();
                }
            });
            world.calls("one who ends", scope::end);
            world.atEnd(() -> made[0] == null ? refused.get() == 1 : made[0].isDone(), "all or nothing");
        });
    }
}
