package cf.service;

import cf.internal.Words;
import java.util.Arrays;

/**
 * Of which stages a stage of a request takes what it ends with, by the words. A request keeps none of that while nobody asks. Who asks has the words
 * read that came since the last time. The request's lock guards it.
 */
final class Sources {
    private final Machine machine;
    private int[][] sources;
    private int stages, words;

    Sources(Flow flow, Machine machine) {
        this.machine = machine;
        stages = flow == null ? 0 : flow.stageCount();
        sources = new int[Math.max(8, stages)][];
        Arrays.setAll(sources, k -> k < stages ? flow.plannedStage(k).sources : null);
    }

    /** Those of a stage, in their order. Of one whose function gave another stage it is that one alone. */
    int[] sourcesOf(int stage) {
        for (long word : machine.words(words)) {
            words++;
            if (Words.kind(word) == Words.ATTACH) {
                sources = stages < sources.length ? sources : Arrays.copyOf(sources, 2 * stages);
                sources[stages++] = Words.sources(word);
            } else if (Words.isLinking(word)) {
                sources[Words.stage(word)] = new int[] {Words.lowBits(word)};
            }
        }
        return sources[stage];
    }
}
