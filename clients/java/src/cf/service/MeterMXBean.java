package cf.service;

/** What a {@link Meter} shows by JMX. Each attribute but the last two looks at all open requests. */
public interface MeterMXBean {
    /** How many requests aren't over. */
    int getOpenRequests();

    /** The age of the oldest of them in seconds; 0 where there is none. */
    double getOldestRequestSeconds();

    /** How many functions were claimed and haven't ended. A thread claims all at once that it made ready. */
    int getRunningFunctions();

    /** How many functions are ready that no thread has taken: the executors' queue. */
    int getReadyFunctions();

    /** For how many seconds the oldest of these has been ready; 0 where there is none. */
    double getOldestReadySeconds();

    /** How many stages somebody has to settle. */
    int getOpenPromises();

    /** How many requests are over. */
    long getEndedRequests();

    /** How many of these have failed: a stage for which no other one waits did. */
    long getFailedRequests();

    /** A line for each open request, the oldest first: for how long it is open, and why. */
    String[] listOpenRequests();

    /** All of it, as Prometheus reads it. */
    String text();
}
