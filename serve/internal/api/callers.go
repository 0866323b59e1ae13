// Identifies callers, and how long their tokens are valid. Outside the proof.

package api

import (
	"context"
	"errors"
	"net/http"
	"time"

	"gateway/internal/auth"
	"gateway/internal/oplog"
)

// find returns the caller that a request's token belongs to, if the request has a token.
func find(callers *auth.Callers, token string, hasToken bool) (*auth.Caller, error) {
	if !hasToken {
		return nil, auth.ErrUnknownToken
	}
	return callers.Find(token, time.Now())
}

// unauthorized is the answer to a request without a valid token: it says that the token has expired, or what to send.
func unauthorized(err error, what string) error {
	expired := (*auth.ExpiredError)(nil)
	if errors.As(err, &expired) {
		what = err.Error()
	}
	return refusal(http.StatusUnauthorized, "%s", what)
}

// named returns a request whose context names its caller, and ends when the caller's token expires, so that no stream outlives it.
func named(r *http.Request, by *auth.Caller) (*http.Request, context.CancelFunc) {
	return bounded(r.WithContext(oplog.WithSender(r.Context(), oplog.NewSender(by.Name, r.RemoteAddr))), by)
}

// bounded returns a request whose context ends when its caller's token expires.
func bounded(r *http.Request, by *auth.Caller) (*http.Request, context.CancelFunc) {
	if by.Expires == nil {
		return r, func() {}
	}
	ctx, cancel := context.WithTimeout(r.Context(), time.Until(*by.Expires))
	return r.WithContext(ctx), cancel
}
