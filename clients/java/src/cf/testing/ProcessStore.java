package cf.testing;

import cf.store.Store;
import cf.testing.Footprint.Access;
import java.util.ArrayList;
import java.util.Collections;
import java.util.List;
import java.util.Map;

/** The store as one process has it. What it asks is a move, but where its process looks what is new. */
final class ProcessStore implements Store {
    private final WorldStore world;
    private final StoreProcess process;
    private final WorldRows rows;

    ProcessStore(WorldStore world, StoreProcess process) {
        this.world = world;
        this.process = process;
        rows = world.rows;
    }

    @Override
    public Opened open(String name, String plan) {
        return world.askStore(process, Answer.OF_WRITES, "opens " + name, null, () -> rows.open(name, plan));
    }

    @Override
    public Opened find(String name) {
        world.touch(WorldRows.ROWS, Access.READS);
        return rows.memory.find(name);
    }

    @Override
    public List<Entry> append(Put put) {
        return world.askStore(process, Answer.OF_PUTS, rows.reader(put.request()).putText(put), new Coming(put, null), () -> rows.append(put));
    }

    @Override
    public List<Entry> read(String name, long number, int at) {
        return world.askStore(process, Answer.OF_READS, "reads " + name, null, () -> rows.read(name, number, at));
    }

    @Override
    public byte[] payload(String name, long number, int place) {
        return rows.memory.payload(name, number, place); // (what stands never changes)
    }

    @Override
    public News news(Object mark) {
        world.touch(WorldRows.ROWS, Access.READS);
        rows.names.stream().filter(name -> rows.memory.isOpen(name)
                && process.worksOn(name)).forEach(name -> world.touch(WorldRows.rowThing(name), Access.READS));
        return rows.memory.news(mark);
    }

    @Override
    public void awaitChange(long millis) {}

    @Override
    public boolean end(String name, long number, int at) {
        return world.askStore(process, Answer.OF_WRITES, "closes " + name, null, () -> rows.end(name, number, at));
    }

    @Override
    public void setTimer(Timer timer) {
        change("sets the limit of " + rows.stageName(timer.request(), timer.stage()), () -> rows.setTimer(timer));
    }

    @Override
    public void dropTimer(Timer timer) {
        change("forgets the limit of " + rows.stageName(timer.request(), timer.stage()), () -> rows.dropTimer(timer));
    }

    private void change(String text, Runnable act) {
        world.askStore(process, Answer.OF_WRITES, text, null, () -> {
            act.run();
            return null;
        });
    }

    @Override
    public List<Timer> dueTimers(double now) {
        return process.due == null ? new ArrayList<>() : Collections.singletonList(process.due);
    }

    @Override
    public double now() {
        return process.host.nanoTime() / 1e9;
    }

    @Override
    public void beat(long session) {
        rows.memory.beat(session);
    }

    @Override
    public Map<Long, Long> beats() {
        return rows.memory.beats();
    }

    @Override
    public void dropBeat(long session) {
        rows.memory.dropBeat(session);
    }

    @Override
    public void nameSession(long session, String name) {}

    @Override
    public Map<Long, String> sessionNames(String request, long number) {
        return rows.memory.sessionNames(request, number);
    }

    @Override
    public boolean isTransactional() {
        return true;
    }

    @Override
    public Transaction transaction() {
        return new ProcessTransaction(world, process);
    }

    @Override
    public void close() {}
}
