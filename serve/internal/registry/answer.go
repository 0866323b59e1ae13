// The outcome of a line, for states in other packages. Outside the proof.

package registry

// AnswerOf returns the name of a refusal, or ok.
func AnswerOf(reply []byte) string { return answerOf(reply) }
