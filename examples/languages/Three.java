// Three nodes elect a coordinator over a log. Here each row is only learned. It takes JNA.
import com.sun.jna.Library;
import com.sun.jna.Memory;
import com.sun.jna.Native;
import com.sun.jna.Pointer;
import com.sun.jna.ptr.LongByReference;

public class Three {
    public interface Bully extends Library {
        int RECOVER = 2; // BULLY_EVENT_RECOVER

        int bully_replica_open(Pointer replica, byte[] header, long length);
        int bully_replica_close(Pointer replica);
        int bully_replica_event(Pointer replica, short node, int event, byte[] row, long room, LongByReference length);
        int bully_replica_next(Pointer replica, short node, byte[] row, long room, LongByReference length);
        int bully_replica_learn(Pointer replica, byte[] rows, long length, LongByReference taken);
        int bully_replica_show(Pointer replica, short node, Pointer state);
        int bully_replica_planned(Pointer replica, short[] owners, long room, LongByReference count);
        String bully_status_name(int status);
    }

    static final Bully bully = Native.load("bully", Bully.class);
    static final Memory group = new Memory(Native.POINTER_SIZE); // a bully_replica
    static final LongByReference length = new LongByReference(), taken = new LongByReference();
    static final byte[] row = new byte[64];

    static void must(int status) {
        if (status != 0) {
            throw new IllegalStateException(bully.bully_status_name(status));
        }
    }

    static boolean step(int node) {
        must(bully.bully_replica_next(group, (short) node, row, row.length, length)); // a length of 0: it rests
        must(bully.bully_replica_learn(group, row, length.getValue(), taken)); // in a store the row is appended first
        return length.getValue() > 0;
    }

    static void elect() {
        byte[] header = "bully,1,3,5\n".getBytes(); // 3 nodes, 5 partitions
        group.clear(); // a handle is zeroed before it is opened
        must(bully.bully_replica_open(group, header, header.length));
        for (short node = 1; node <= 3; node++) {
            must(bully.bully_replica_event(group, node, Bully.RECOVER, row, row.length, length));
            must(bully.bully_replica_learn(group, row, length.getValue(), taken));
        }
        while (step(1) || step(2) || step(3)) {
        }
    }

    static void show() {
        Memory state = new Memory(36); // a bully_state: its status is at byte 0, its coordinator at byte 30
        String[] statuses = {"down", "election", "reorganization", "normal"};
        for (short node = 1; node <= 3; node++) {
            must(bully.bully_replica_show(group, node, state));
            System.out.println(node + " " + statuses[state.getInt(0)] + " " + state.getShort(30));
        }
        short[] owners = new short[5];
        must(bully.bully_replica_planned(group, owners, owners.length, length));
        StringBuilder table = new StringBuilder();
        for (int place = 0; place < length.getValue(); place++) {
            table.append(place == 0 ? "" : " ").append(owners[place]);
        }
        System.out.println(table);
    }

    public static void main(String[] words) {
        elect();
        show();
        must(bully.bully_replica_close(group));
    }
}
