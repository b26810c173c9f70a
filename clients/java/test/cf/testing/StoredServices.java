package cf.testing;

import static java.util.concurrent.TimeUnit.SECONDS;

import cf.store.Functions;
import cf.store.RemoteException;
import cf.store.StoreException;
import cf.store.StoredRequest;
import cf.store.StoredStage;
import java.sql.Connection;
import java.sql.PreparedStatement;
import java.sql.SQLException;
import java.util.ArrayList;
import java.util.Collections;
import java.util.List;
import java.util.function.Supplier;

/** Twelve services over a store. Eleven are those of the kit for Python. */
final class StoredServices {
    static final Planted ALL = new Planted()
            .with("charged again", StoredServices::chargedAgain, "charged at most once")
            .with("goes on without its claim", StoredServices::goesOn, "booked at most once")
            .with("told without an answer", StoredServices::toldUnanswered, "what is told to be approved is")
            .with("begun anew", StoredServices::begunAnew, "ordered at most once")
            .with("freed too early", StoredServices::freedTooEarly, "sold once")
            .with("charged behind its limit", StoredServices::chargedBehindLimit, "charged at most once")
            .with("own word for another's", StoredServices::ownWord, "nobody else has it")
            .with("asked by an old view", StoredServices::oldView, "ordered at one place")
            .with("abandoned and done", StoredServices::abandoned, "charged at most once")
            .with("done elsewhere", StoredServices::doneElsewhere, "exactly one mail")
            .with("withdrawn while it runs", StoredServices::withdrawn, "what is told to be withdrawn isn't sent")
            .with("told before it came", StoredServices::toldBefore, "what is told not to be cancelled isn't");

    private StoredServices() {}

    /** What a call is answered that may be asked again, whatever became of it before. */
    private static <T> T inTheEnd(Supplier<T> call) {
        while (true) {
            try {
                return call.get();
            } catch (StoreException.Unknown silent) {
                continue;
            }
        }
    }

    /** A process that runs no function, beside so many that do. */
    private static StoreProcess shop(WorldStore store, Functions functions, int workers) {
        for (int number = 1; number <= workers; number++) {
            store.worker("worker " + number, functions);
        }
        return store.process("the shop", functions).workers(0);
    }

    /** A payment is made by a function that may be called again. */
    static void chargedAgain(World world, boolean byKey) {
        List<Object> charges = new ArrayList<>();
        Functions functions = new Functions().with("charge", 1, order -> byKey && charges.contains(order) || charges.add(order));
        shop(world.store().killed(1), functions, 2).request("order 17").supply("charge", 17).again(1);
        world.check(() -> charges.size() <= 1, "charged at most once");
    }

    /** A function goes on, though its process was taken for gone, and another has its place. */
    private static void goesOn(World world, boolean inTransaction) {
        List<Object> written = new ArrayList<>();
        Functions functions = new Functions().with("book slowly", 1, () -> {
            world.point();
            return written.add("booked");
        }).transactional("book", 1, (connection, args) -> write(connection, "a booking"));
        WorldStore store = world.store().slow(1);
        shop(store, functions, 1).request("trip").supply(inTransaction ? "book" : "book slowly").again(1);
        world.check(() -> (inTransaction ? store.effects() : written).size() <= 1, "booked at most once");
    }

    private static int write(Connection connection, String what) throws SQLException {
        try (PreparedStatement insert = connection.prepareStatement("insert into written values (?)")) {
            insert.setString(1, what);
            return insert.executeUpdate();
        }
    }

    /** A client tells an outcome whose put wasn't answered. */
    private static void toldUnanswered(World world, boolean asksAgain) {
        List<String> told = new ArrayList<>();
        WorldStore store = world.store().silent(1);
        StoreProcess shop = shop(store, new Functions(), 0);
        StoredStage approval = shop.request("order 17").promise("approval");
        shop.calls("the clerk", () -> {
            try {
                approval.complete("yes");
            } catch (StoreException.Unknown silent) {
                if (asksAgain) {
                    inTheEnd(() -> approval.complete("yes"));
                }
            }
            told.add("approved");
        });
        world.atEnd(() -> told.isEmpty() || "yes".equals(store.outcome("order 17", "approval")), "what is told to be approved is");
    }

    /** A client that got no answer begins the order anew. */
    private static void begunAnew(World world, boolean byName) {
        List<Integer> charges = new ArrayList<>();
        Functions functions = new Functions().with("charge", 1, () -> charges.add(17));
        StoreProcess shop = world.store().silent(1).process("the shop", functions);
        shop.calls("a client", () -> {
            for (int attempt = 1; attempt <= 2; attempt++) {
                try {
                    StoredRequest request = shop.request(byName ? "order 17" : "order 17, attempt " + attempt);
                    if (request.stage("charge") == null) {
                        request.supply("charge");
                    }
                    return;
                } catch (StoreException.Unknown silent) {
                    continue;
                }
            }
        });
        world.atEnd(() -> charges.size() <= 1, "ordered at most once");
    }

    /** A clock runs ahead, and what somebody holds is given to another too early. */
    private static void freedTooEarly(World world, boolean byRow) {
        List<String> sold = new ArrayList<>();
        WorldStore store = world.store();
        StoreProcess shop = store.process("the shop"), cleaner = store.process("the cleaner").ahead(60);
        StoredStage held = shop.request("seat 12").promise("hold"), its = cleaner.open("seat 12").stage(0);
        double until = shop.now() + 10;
        shop.calls("the holder", () -> {
            if (held.complete("paid") || !byRow) {
                sold.add("to the holder");
            }
        });
        cleaner.calls("the cleaner", () -> {
            if (cleaner.now() > until && (byRow ? its.cancel() : !its.isDone())) {
                sold.add("to another");
            }
        });
        world.check(() -> sold.size() <= 1, "sold once");
    }

    /** A limit says that nobody waits any longer, and not that nothing was done. */
    private static void chargedBehindLimit(World world, boolean isBefore) {
        List<Object> charges = new ArrayList<>();
        Functions functions = new Functions().with("charge", 1, cents -> charges.add(cents)).with("charge another card", 1, error -> charges.add(4900));
        StoreProcess shop = shop(world.store(), functions, 1);
        StoredStage price = shop.request("order 17").promise("price");
        if (isBefore) {
            price.orTimeout(2, SECONDS).then("charge").recover("charge another card");
        } else {
            price.then("charge").orTimeout(2, SECONDS).recover("charge another card");
        }
        shop.calls("the price", () -> price.complete(4900));
        world.check(() -> charges.size() <= 1, "charged at most once");
    }

    /** A client that got no answer asks again, and takes it for another's that his own word stands. */
    private static void ownWord(World world, boolean reads) {
        List<String> told = new ArrayList<>();
        StoreProcess shop = world.store().silent(1).process("the shop");
        StoredStage lock = shop.request("lock").promise("owner");
        shop.calls("a client", () -> {
            boolean did;
            try {
                did = lock.complete("me");
            } catch (StoreException.Unknown silent) {
                did = inTheEnd(() -> lock.complete("me"));
                did = reads ? lock.get().equals("me") : did;
            }
            told.add(did ? "mine" : "another's");
        });
        world.atEnd(() -> !told.equals(Collections.singletonList("another's")), "nobody else has it");
    }

    /** A process decides by what it has read before. */
    private static void oldView(World world, boolean byCancel) {
        List<String> orders = new ArrayList<>();
        WorldStore store = world.store();
        StoreProcess one = store.process("one"), two = store.process("two");
        StoredStage mine = one.request("supplier").promise("offer"), its = two.open("supplier").stage(0);
        one.calls("the buyer", () -> {
            if (mine.complete("accepted")) {
                orders.add("the offer");
            }
        });
        two.calls("his colleague", () -> {
            if (byCancel ? its.cancel() : !its.isDone()) {
                orders.add("elsewhere");
            }
        });
        world.atEnd(() -> orders.size() <= 1, "ordered at one place");
    }

    /** What was abandoned may have been done. */
    private static void abandoned(World world, boolean byHand) {
        List<Integer> charges = new ArrayList<>();
        Functions functions = new Functions().with("charge", 1, () -> charges.add(17)).with("charge after all", 1, error ->
                byHand && ((RemoteException) error).kind().equals(RemoteException.ABANDONED) ? "to be looked into" : charges.add(17));
        shop(world.store().killed(1), functions, 2).request("order 17").supply("charge").recover("charge after all");
        world.atEnd(() -> charges.size() <= 1, "charged at most once");
    }

    /** A stage is abandoned, and its function goes on. */
    private static void withdrawn(World world, boolean unlessItRuns) {
        List<String> sent = new ArrayList<>(), told = new ArrayList<>();
        Functions functions = new Functions().with("send", 1, () -> sent.add("a letter"));
        StoreProcess shop = shop(world.store(), functions, 1);
        StoredStage letter = shop.request("order 17").supply("send");
        shop.calls("a client", () -> {
            if (unlessItRuns ? letter.cancel() : letter.abandon()) {
                told.add("withdrawn");
            }
        });
        world.atEnd(() -> told.isEmpty() || sent.isEmpty(), "what is told to be withdrawn isn't sent");
    }

    /** A transactional function is called again where its commit never came, and what it did elsewhere stands. */
    private static void doneElsewhere(World world, boolean byConnection) {
        List<String> mails = new ArrayList<>();
        Functions functions = new Functions().transactional("write", 1, (connection, args) -> byConnection ? write(connection, "a mail") : mails.add("a mail"));
        WorldStore store = world.store().lost(1).unanswered(1);
        shop(store, functions, 1).request("order 17").supply("write");
        world.atEnd(() -> (byConnection ? store.effects() : mails).size() == 1, "exactly one mail");
    }

    /** A put that was given up comes later. */
    private static void toldBefore(World world, boolean asksAgain) {
        List<String> told = new ArrayList<>();
        WorldStore store = world.store().silent(1).late(1);
        StoreProcess shop = store.process("the shop");
        StoredStage order = shop.request("order 17").promise("order");
        shop.calls("a client", () -> {
            boolean did;
            try {
                did = order.cancel();
            } catch (StoreException.Unknown silent) {
                did = asksAgain && inTheEnd(order::cancel);
            }
            told.add(did ? "cancelled" : "not cancelled");
        });
        world.atEnd(() -> !told.contains("not cancelled") || !store.isSettled("order 17", "order"), "what is told not to be cancelled isn't");
    }
}
