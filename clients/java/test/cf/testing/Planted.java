package cf.testing;

import static cf.service.Checks.has;
import static cf.service.Checks.is;

import java.util.ArrayList;
import java.util.List;
import java.util.function.UnaryOperator;

/** Services with a fault of order, and the same ones without it. */
final class Planted {
    /** For a search that ends by itself. */
    static final int SECONDS_ENOUGH = 600;

    private final List<Service> faulty = new ArrayList<>(), sound = new ArrayList<>();

    /** A service, which is sound or not. */
    interface Either {
        void run(World world, boolean isSound);
    }

    /** A test, by its name. */
    static final class Service {
        final String name;
        private final Scenario scenario;
        /** What is told where it fails. */
        private final String why;
        private final UnaryOperator<Orders> options;

        private Service(String name, Scenario scenario, String why, UnaryOperator<Orders> options) {
            this.name = name;
            this.scenario = scenario;
            this.why = why;
            this.options = options;
        }

        Orders orders() {
            return options.apply(Orders.of(scenario).seconds(SECONDS_ENOUGH));
        }
    }

    /** With what is told where it fails. It gives this. */
    Planted with(String name, Either either, String why) {
        return with(name, either, why, UnaryOperator.identity());
    }

    Planted with(String name, Either either, String why, UnaryOperator<Orders> options) {
        faulty.add(new Service(name, world -> either.run(world, false), why, options));
        sound.add(new Service(name + ", mended", world -> either.run(world, true), null, options));
        return this;
    }

    Service faulty(String name) {
        return faulty.stream().filter(it -> it.name.equals(name)).findFirst().get();
    }

    Service sound(String name) {
        return sound.stream().filter(it -> it.name.equals(name + ", mended")).findFirst().get();
    }

    /** So many services have each a fault that is found by so many orders, and fail again by its row alone. */
    void areFound(int count, int most) {
        for (Service service : faulty) {
            Report report = service.orders().run();
            is(service.name + ": " + report.failed().size(), service.name + ": 1");
            has(report.failed().get(0).why(), service.why);
            is(service.name + ": " + (report.orders() <= most), service.name + ": true");
            Report again = service.orders().row(report.failed().get(0).row()).run();
            is(again.orders(), 1);
            is(again.failed().get(0).why(), report.failed().get(0).why());
            is(again.failed().get(0).row(), report.failed().get(0).row());
        }
        is(faulty.size(), count);
    }

    /** Without its fault each is sound in all orders, of which there are so many at most. */
    void areSound(int most) {
        sound.forEach(service -> isSound(service.name, service.orders().most(most).run()));
    }

    /** Nothing was found, and all was seen. */
    static void isSound(String name, Report report) {
        is(name + ": " + report.failed(), name + ": []");
        is(name + ": " + report.whole(), name + ": true");
    }
}
