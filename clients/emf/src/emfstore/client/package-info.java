/**
 * A client of the program emfstore for EMF. {@link emfstore.client.Store} sends commands, and {@link emfstore.client.Workspace} has those of one
 * workspace. {@link emfstore.client.Recorder} records a live resource, and {@link emfstore.client.StoreResourceFactory} makes resources by URI.
 */
package emfstore.client;
