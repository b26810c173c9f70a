package cf.store;

import cf.internal.Host;
import cf.internal.RequestReader;
import cf.internal.Serving;
import cf.internal.Stores;
import cf.internal.Words;
import cf.service.Describe;
import java.sql.Connection;
import java.util.ArrayList;
import java.util.Collection;
import java.util.Collections;
import java.util.List;
import java.util.Map;
import java.util.concurrent.CancellationException;
import java.util.concurrent.TimeUnit;

/** What a search over a store sees of services and rows: {@link StoreService} and {@link RowView} by another name. */
final class Insight implements Stores {
    private static final String[] DONE = {"", "is completed", "is failed", "is cancelled", "is claimed", "is finished", "", "", "is failed"};

    @Override
    public Serving service(Store store, Functions functions, int threads, long lease, boolean takesAll, Host host) {
        return new OfService(StoreService.builder(store, functions).threads(threads)
                .lease(lease, TimeUnit.NANOSECONDS).takesAll(takesAll).host(host).build());
    }

    @Override
    public RequestReader reader(Store store, Store.Opened opened) {
        return new OfRow(new RowView(store, opened, 0, new Host()));
    }

    @Override
    public Connection guardConnection(Connection db) {
        return JdbcStore.guardConnection(db);
    }

    @Override
    public int claimedStage(long word) {
        return Words.kind(word) == Words.CLAIM ? Words.stage(word) : -1;
    }

    private static final class OfService implements Serving {
        private final StoreService service;

        OfService(StoreService service) {
            this.service = service;
        }

        @Override
        public StoreService service() {
            return service;
        }

        @Override
        public long session() {
            return service.session;
        }

        @Override
        public boolean isStopped() {
            return service.isStopped();
        }

        @Override
        public boolean hasRequest(String request) {
            return service.findServed(request) != null;
        }

        @Override
        public boolean hasStage(StoredStage stage) {
            return service.findServed(stage.request.name) == stage.request;
        }

        @Override
        public boolean isBroken(String request) {
            return service.isBroken(request);
        }

        @Override
        public boolean isFiring(Store.Timer timer) {
            return service.isFiring(timer);
        }

        @Override
        public boolean knowsFunction(RequestReader all, int stage) {
            return service.knowsFunction(((OfRow) all).view, stage);
        }

        @Override
        public boolean hasUntold(String name, RequestReader all) {
            StoredRequest request = service.findServed(name);
            return request != null && request.hasUntold(((OfRow) all).view);
        }

        @Override
        public void beat() {
            service.beat();
        }

        @Override
        public void runRound() {
            service.runRound();
        }
    }

    private static final class OfRow implements RequestReader {
        private final RowView view;

        OfRow(RowView view) {
            this.view = view;
            view.freeWith(this);
        }

        @Override
        public List<Integer> catchUp() {
            view.catchUp();
            List<Integer> settled = view.takeSettled();
            Collections.sort(settled);
            return settled;
        }

        @Override
        public int wordCount() {
            return view.wordCount();
        }

        @Override
        public int stageCount() {
            return view.stageCount();
        }

        @Override
        public String stageName(int stage) {
            return view.spec(stage).name;
        }

        @Override
        public boolean isSettled(int stage) {
            return view.isSettled(stage);
        }

        @Override
        public Object outcome(int stage) {
            Throwable fault = view.fault(view.outcome(stage));
            return fault == null ? view.value(view.outcome(stage).place) : fault;
        }

        @Override
        public String endText(int stage) {
            Object outcome = outcome(stage);
            if (outcome instanceof CancellationException && !view.outcome(stage).isWrapped) {
                return "is cancelled";
            }
            if (outcome instanceof Throwable && !(outcome instanceof RemoteException)) {
                String message = ((Throwable) outcome).getMessage();
                return "ends: " + outcome.getClass().getSimpleName() + (message == null ? "" : ": " + message);
            }
            return "ends: " + (outcome instanceof Throwable ? ((Throwable) outcome).getMessage() : outcome == null ? "null" : Describe.ALL.describe(outcome));
        }

        @Override
        public List<Integer> readyStages() {
            List<Integer> ready = new ArrayList<>();
            for (int stage = view.lowestReady(0); stage >= 0; stage = view.lowestReady(stage + 1)) {
                ready.add(stage);
            }
            return ready;
        }

        @Override
        public Collection<Long> claimants() {
            return view.openClaims().values();
        }

        @Override
        public boolean hasRelays() {
            return view.relayWord() != null;
        }

        @Override
        public boolean isFinished() {
            return view.isPlanned() && view.isDone(session -> false);
        }

        @Override
        public boolean isDone(Collection<Long> gone) {
            return view.isDone(gone::contains);
        }

        @Override
        public StoredHistory history() {
            return view.facts().history(Describe.ALL);
        }

        @Override
        public String putText(Store.Put put) {
            StringBuilder text = new StringBuilder("puts to ").append(put.request).append(": ");
            for (int k = 0; k < put.entries.size(); k++) {
                text.append(k == 0 ? "" : ", ").append(text(put.entries.get(k).word, put.payloads.get(put.at + 1 + k)));
            }
            return text.toString();
        }

        private String text(long word, byte[] payload) {
            if (Words.kind(word) == Words.ATTACH) {
                Object name = payload == null ? null : ((Map<?, ?>) Json.read(payload)).get("name");
                return (name == null ? "a stage" : name) + " is attached";
            }
            int stage = Words.stage(word);
            String done = Words.isThrowing(word) ? "has thrown" : Words.isLinking(word) ? "is linked" : DONE[Words.kind(word)];
            return (stage < view.stageCount() ? stageName(stage) : "stage " + stage) + " " + done;
        }
    }
}
