package cf.service;

import cf.internal.Text;
import java.util.Collections;
import java.util.List;

/** A request that isn't over, and why, as {@link Meter#openRequests} found it. */
public final class OpenRequest {
    private final Request request;
    private final double seconds;
    private final List<String> waits;

    OpenRequest(Request request, double seconds, List<String> waits) {
        this.request = request;
        this.seconds = seconds;
        this.waits = Collections.unmodifiableList(waits);
    }

    /** The request itself. */
    public Request request() {
        return request;
    }

    /** For how many seconds it is open. */
    public double seconds() {
        return seconds;
    }

    /**
     * Why it isn't over: a text for each function that runs or is ready, and for each stage that somebody has to settle. What waits for another
     * stage of the request isn't told: that stage is. The texts are for people.
     */
    public List<String> waits() {
        return waits;
    }

    /** All of it in one line. */
    @Override
    public String toString() {
        return Text.escape(request.name()) + ", open" + Meter.forSeconds(seconds) + ": " + String.join("; ", waits);
    }
}
