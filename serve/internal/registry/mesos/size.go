// The space that the frameworks of one principal take in the rows. Outside the proof.

package mesos

// BytesOf returns the bytes that a principal's frameworks have in the rows: descriptions of frameworks, of custom executors and of tasks that run
// or whose last status is not acknowledged, and those statuses. It is called by Read.
func (s *State) BytesOf(principal string) (bytes int64) {
	for _, f := range s.Frameworks {
		if f.Principal != principal {
			continue
		}
		bytes += int64(len(f.Info))
		for _, e := range f.Executors {
			bytes += int64(len(e.Info))
		}
		for _, t := range f.Tasks {
			bytes += t.Launch.Bytes()
			for k := range t.Unacked {
				bytes += int64(len(t.Unacked[k].Raw) + len(t.Unacked[k].Message))
			}
		}
	}
	return bytes
}

// Bytes returns the bytes of the descriptions of a launch.
func (l *Launch) Bytes() int64 { return int64(len(l.Info) + len(l.ExecutorInfo)) }
