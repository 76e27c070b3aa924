package emfstore.client;

import java.util.List;

/**
 * Operations of two sides that interfere, of which one side is kept.
 *
 * @param number that of the bucket, from 1
 * @param theirs the operations of the new versions, or of the other branch, numbered over all these versions
 * @param mine the workspace's own operations as {@code changes} numbers them; of a merge what leads from the last common version to the workspace's
 *     model, as it is tidied
 * @param changes what the two sides change, a line for each element and feature
 */
public record Conflict(int number, List<Operation> theirs, List<Operation> mine, List<Change> changes) {
    /**
     * What the two sides make of one feature of an element, or of its place. Values are JSON texts as {@code show} prints them, and null where
     * nothing is set or the element isn't there. A place is {@code PARENT FEATURE INDEX} or {@code / INDEX}.
     *
     * @param element the id
     * @param label a name of the element: its attribute {@code name}, {@code label} or {@code title}, or another text that it has, or else its class
     * @param path the labels of the elements that contain it, from the root on, and its own, with {@code /} between them
     * @param feature the feature, or null for the place
     * @param old what both sides began with
     */
    public record Change(String element, String label, String path, String feature, String old, String theirs, String mine) { }
}
